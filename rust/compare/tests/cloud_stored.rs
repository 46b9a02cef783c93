//! The stored answers of the Rattle program `cloud_test` are those of the independent reader, on the inputs that stand in its source.

use compare::cloud::reader::read_cloud;

const SOURCE: &str = include_str!("../../../crates/cloud_test/src/main.rt");
const STORED: &str = include_str!("../../../crates/cloud_test/stdout");

/// The bytes that a literal's text, between its quotes, stands for.
fn bytes(text: &str) -> Vec<u8> {
    let mut out = Vec::new();
    let mut rest = text.bytes();
    while let Some(b) = rest.next() {
        out.push(match b {
            b'\\' => match rest.next().unwrap() {
                b'n' => b'\n',
                b'r' => b'\r',
                b't' => b'\t',
                b'"' => b'"',
                b'x' => {
                    let digits = [rest.next().unwrap(), rest.next().unwrap()];
                    u8::from_str_radix(std::str::from_utf8(&digits).unwrap(), 16).unwrap()
                }
                other => panic!("escape {other}"),
            },
            plain => plain,
        });
    }
    out
}

/// The text between the quotes of the literal that a call is passed behind the runtime.
fn literal(call: &str) -> Option<&str> {
    let text = call.trim_start().strip_prefix("rt,")?.trim_start().strip_prefix("b\"")?;
    let is_end = |at: usize| text.as_bytes()[at] == b'"' && !text[..at].ends_with('\\');
    (0..text.len()).find(|&at| is_end(at)).map(|at| &text[..at])
}

fn patterns(slice: &[f32]) -> String {
    slice.iter().map(|x| format!(" {:08x}", x.to_bits())).collect()
}

#[test]
fn stored_answers() {
    let (mut points, mut normals) = ([0.0; 6], [0.0; 7]);
    let mut expected = String::new();
    for input in SOURCE.split("show(").filter_map(literal) {
        points.fill(9.0);
        normals.fill(9.0);
        let r = read_cloud(&bytes(input), &mut points, &mut normals);
        let radius = patterns(&[r.radius]);
        let (p, n) = (patterns(&points), patterns(&normals));
        expected += &format!("{},{},{},{radius} |{p} |{n}\n", r.answer, r.detail, r.count);
    }
    assert!(expected.lines().count() > 50);
    assert_eq!(STORED, expected);
}
