//! Takes the marks of MARKS.md back and checks that what is left is the published file.

const MARKED: &str = include_str!("../src/ball_pivoting.rs");
const MARK: &str = "// yarrowbleat: ";
/// Length in bytes and FNV-1a (64 bits) of the published file, revision 6d1fccf509.
const LENGTH: usize = 30_270;
const HASH: u64 = 0xf884_855e_0b88_61c0;

fn fnv1a(bytes: &[u8]) -> u64 {
    bytes.iter().fold(0xcbf2_9ce4_8422_2325, |hash, byte| (hash ^ u64::from(*byte)).wrapping_mul(0x100_0000_01b3))
}

fn restored(text: &str) -> String {
    let mut out = String::new();
    let mut inside = false;
    for line in text.lines() {
        let mark = line.find(MARK).map(|at| &line[at + MARK.len()..]);
        let old = match mark {
            None if inside => None,
            None => Some(line),
            Some("begin") => {
                inside = true;
                None
            }
            Some("end") => {
                inside = false;
                None
            }
            Some("added") => None,
            Some(was) => Some(was.strip_prefix("was|").expect("a mark of MARKS.md")),
        };
        if let Some(old) = old {
            out.push_str(old);
            out.push('\n');
        }
    }
    out
}

#[test]
fn unmarked_lines_are_as_published() {
    let text = restored(MARKED);
    assert_eq!((text.len(), fnv1a(text.as_bytes())), (LENGTH, HASH));
}

#[test]
fn an_unmarked_change_is_seen() {
    let text = restored(&MARKED.replacen("1e-10", "1e-11", 1));
    assert_ne!(fnv1a(text.as_bytes()), HASH);
}

#[test]
fn fnv1a_of_the_letter_a() {
    assert_eq!(fnv1a(b"a"), 0xaf63_dc4c_8601_ec8c);
}
