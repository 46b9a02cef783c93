//! The C header and the Rust declarations have the structs and functions of the Rattle source, by its text.

use std::collections::{BTreeMap, BTreeSet};
use yarrowbleat::sys::{self, LAYOUTS};

const HEADER: &str = include_str!("../../../c/yarrowbleat.h");
const SYS: &str = include_str!("../src/sys.rs");
const EXPORTS: &str = include_str!("../../../crates/exports/src/lib.rt");
const RELEASE: &str = include_str!("../../../crates/release/src/lib.rt");
const STRUCTS: [(&str, &str); 17] = [
    ("TriangleQuality", include_str!("../../../crates/quality/src/lib.rt")),
    ("Estimate", include_str!("../../../crates/estimate/src/lib.rt")),
    ("BallPivotingConfig", include_str!("../../../crates/settings/src/lib.rt")),
    ("Patch", include_str!("../../../crates/ball_pivoting/src/lib.rt")),
    ("CloudRead", include_str!("../../../crates/cloud/src/lib.rt")),
    ("StlWritten", include_str!("../../../crates/stl_file/src/lib.rt")),
    ("StlRead", include_str!("../../../crates/stl_file/src/lib.rt")),
    ("Ordered", include_str!("../../../crates/patch_order/src/lib.rt")),
    ("SeasonPatch", include_str!("../../../crates/tally/src/lib.rt")),
    ("Tally", include_str!("../../../crates/tally/src/lib.rt")),
    ("Fraction", include_str!("../../../crates/fractions/src/lib.rt")),
    ("Figures", include_str!("../../../crates/figures/src/lib.rt")),
    ("Verdict", include_str!("../../../crates/verdict/src/numbered.rt")),
    ("Indexed", include_str!("../../../crates/point_index/src/lib.rt")),
    ("Belongs", include_str!("../../../crates/point_index/src/lib.rt")),
    ("Nearest", include_str!("../../../crates/nearest_points/src/lib.rt")),
    ("Searched", include_str!("../../../crates/nearest_points/src/lib.rt")),
];

/// What stands between two marks, from the first place where the one before it stands.
fn between<'a>(text: &'a str, before: &str, after: &str) -> &'a str {
    let start = text.find(before).unwrap_or_else(|| panic!("{before} is missing")) + before.len();
    &text[start..start + text[start..].find(after).expect("an end")]
}

/// Without comments, and with any white space as one blank, none after an open bracket or before a closed one.
fn plain(text: &str) -> String {
    let starts = text.split("/*").enumerate().map(|(at, part)| if at == 0 { part } else { after(part, "*/") });
    let text = starts.collect::<String>();
    let lines = text.lines().map(|line| line.split("//").next().unwrap());
    let text = lines.flat_map(str::split_whitespace).collect::<Vec<_>>().join(" ");
    text.replace("( ", "(").replace(", )", ")").replace(",)", ")")
}

fn after<'a>(text: &'a str, mark: &str) -> &'a str {
    text.split_once(mark).expect("an end").1
}

/// The names and types of a list `a: A, b: B` of Rattle's.
fn pairs(list: &str) -> Vec<(&str, &str)> {
    list.split(',').filter_map(|entry| entry.trim().split_once(": ")).collect()
}

fn fields(source: &'static str, name: &str) -> Vec<(&'static str, &'static str)> {
    let inside = between(source, &format!("#[repr(C)]\n#[derive(Clone, Copy)]\npub struct {name} {{"), "\n}");
    inside.lines().filter_map(|l| l.trim().strip_prefix("pub ")?.strip_suffix(',')?.split_once(": ")).collect()
}

/// Size and alignment of a field's type in C's layout on 64 bits.
fn room(kind: &str) -> (usize, usize) {
    match kind {
        "bool" => (1, 1),
        "u32" | "f32" => (4, 4),
        "usize" | "u64" => (8, 8),
        other => match other.strip_prefix("[f32; ").and_then(|r| r.strip_suffix(']')) {
            Some(count) => (4 * count.parse::<usize>().unwrap(), 4),
            None => {
                let (_, source) = STRUCTS.iter().find(|(name, _)| *name == other).expect("a known type");
                let (size, align, _) = layout(source, other);
                (size, align)
            }
        },
    }
}

/// Size and alignment of a struct, and the offsets of its fields.
fn layout(source: &'static str, name: &str) -> (usize, usize, Vec<(&'static str, usize)>) {
    let (mut end, mut widest) = (0, 1);
    let mut offsets = Vec::new();
    for (field, kind) in fields(source, name) {
        let (size, align) = room(kind);
        let at = usize::next_multiple_of(end, align);
        offsets.push((field, at));
        (end, widest) = (at + size, widest.max(align));
    }
    (end.next_multiple_of(widest), widest, offsets)
}

/// The fields of the Rattle source lie where Rust and C are held to.
#[test]
fn layouts() {
    assert_eq!(LAYOUTS.len(), STRUCTS.len());
    let mut asserts = String::new();
    for ((name, source), (rust_name, rust_size, rust_fields)) in STRUCTS.iter().zip(LAYOUTS) {
        let (size, _, offsets) = layout(source, name);
        assert_eq!((*name, size, offsets.as_slice()), (*rust_name, *rust_size, *rust_fields));
        asserts += &format!("YB_SIZE(Yb{name}, {size});\n");
        offsets.iter().for_each(|(field, at)| asserts += &format!("YB_AT(Yb{name}, {field}, {at});\n"));
    }
    let stated = HEADER.lines().filter(|l| l.starts_with("YB_SIZE(") || l.starts_with("YB_AT("));
    assert_eq!(stated.map(|l| format!("{l}\n")).collect::<String>(), asserts);
}

/// The types of the fields, and not their places alone, are those of the Rattle source.
#[test]
fn field_types() {
    let header = plain(HEADER);
    for (name, source) in STRUCTS {
        let rust = plain(between(SYS, &format!("pub struct {name} {{"), "}"));
        let c = between(&header, "typedef struct {", &format!("}} Yb{name};")).rsplit("typedef struct {").next();
        let c_field = |(field, kind): &(&str, &str)| match kind.strip_prefix("[f32; ") {
            Some(count) => format!("float {field}[{count};"),
            None => format!("{} {field};", c_type(kind)),
        };
        let fields = fields(source, name);
        assert_eq!(c.unwrap().trim(), fields.iter().map(c_field).collect::<Vec<_>>().join(" "));
        let rust_field = |(field, kind): &(&str, &str)| format!("pub {field}: {kind},");
        assert_eq!(rust.trim(), fields.iter().map(rust_field).collect::<Vec<_>>().join(" "));
    }
}

fn c_type(kind: &str) -> String {
    match kind {
        "f32" => "float".into(),
        "u32" => "uint32_t".into(),
        "u64" => "uint64_t".into(),
        "u8" => "uint8_t".into(),
        "usize" => "size_t".into(),
        "bool" => "bool".into(),
        record => format!("Yb{record}"),
    }
}

fn c_parameter((name, kind): &(&str, &str)) -> String {
    let slice = |of: &str, before: &str| format!("{before}{} *{name}, size_t {name}_len", c_type(of));
    match (kind.strip_prefix("&mut ["), kind.strip_prefix("&[")) {
        (Some(of), _) => slice(of.trim_end_matches(']'), ""),
        (_, Some(of)) => slice(of.trim_end_matches(']'), "const "),
        _ => match (kind.strip_prefix("&mut "), kind.strip_prefix('&')) {
            (Some(of), _) => format!("{} *{name}", c_type(of)),
            (_, Some(of)) => format!("const {} *{name}", c_type(of)),
            _ => format!("{} {name}", c_type(kind)),
        },
    }
}

fn rust_parameter((name, kind): &(&str, &str)) -> String {
    let slice = |of: &str, how: &str| format!("{name}: *{how} {}, {name}_len: usize", of.trim_end_matches(']'));
    match (kind.strip_prefix("&mut ["), kind.strip_prefix("&[")) {
        (Some(of), _) => slice(of, "mut"),
        (_, Some(of)) => slice(of, "const"),
        _ => match (kind.strip_prefix("&mut "), kind.strip_prefix('&')) {
            (Some(of), _) => format!("{name}: *mut {of}"),
            (_, Some(of)) => format!("{name}: *const {of}"),
            _ => format!("{name}: {kind}"),
        },
    }
}

/// Every exported function is declared in both, with the same parameters and result, and nothing else is.
#[test]
fn functions() {
    let (header, sys) = (plain(HEADER), plain(SYS));
    let mut names = BTreeSet::new();
    for item in EXPORTS.split("pub extern \"C\" fn ").skip(1) {
        let (name, rest) = item.split_once('(').unwrap();
        let (list, rest) = rest.split_once(") -> ").unwrap();
        let result = rest.split_whitespace().next().unwrap();
        let parameters = pairs(list);
        let join = |of: fn(&(&str, &str)) -> String| parameters.iter().map(of).collect::<Vec<_>>().join(", ");
        let none = if parameters.is_empty() { "void" } else { "" };
        let c = format!("{} {name}({}{none});", c_type(result), join(c_parameter));
        assert!(header.contains(&c), "the header lacks {c}");
        let rust = format!("pub fn {name}({}) -> {result};", join(rust_parameter));
        assert!(sys.contains(&rust), "sys.rs lacks {rust}");
        names.insert(name);
    }
    assert_eq!(names.len(), sys.matches("pub fn yb_").count());
    // What the header names beside them it defines itself.
    let in_line = header.split("static inline ").skip(1).filter_map(|item| item.split('(').next()?.split("yb_").nth(1));
    let named = header.split("yb_").skip(1).filter_map(|item| item.split_once('(')).map(|(name, _)| name);
    let known = names.iter().filter_map(|name| name.strip_prefix("yb_")).chain(in_line);
    assert_eq!(named.collect::<BTreeSet<_>>(), known.collect::<BTreeSet<_>>());
}

/// The number that a function of crate `release` returns.
fn returned(name: &str) -> u32 {
    between(RELEASE, &format!("≡ {name} }}\n{{\n"), "\n}").trim().parse().unwrap()
}

/// The version and the layout are stated in crate `release`; header, crate and library have the same.
#[test]
fn version_and_layout() {
    let defined = |name: &str| between(HEADER, &format!("#define {name} "), "u\n").parse::<u32>().unwrap();
    let version = env!("CARGO_PKG_VERSION").split('.').fold(0, |sum, part| 1000 * sum + part.parse::<u32>().unwrap());
    assert_eq!([version, defined("YB_VERSION"), sys::version(), sys::release()], [returned("version"); 4]);
    let layout = sys::LAYOUT;
    assert_eq!(layout, returned("layout"), "crates/release (src, specs, must-fail) has to state the layout {layout}");
    assert_eq!([layout, layout], [defined("YB_LAYOUT"), sys::layout()]);
    let named = format!("fn yb_release_{version}_{layout}()");
    assert!(EXPORTS.contains(&named), "crates/exports has to have {named}");
}

/// The header's words for the answers are the crate's.
#[test]
fn answers() {
    let names = between(HEADER, "/* The answers. */\ntypedef enum {", "} YbAnswer;");
    let mut words = BTreeMap::new();
    for entry in names.split(',') {
        let (name, number) = entry.trim().split_once(" = ").unwrap();
        words.insert(number.parse::<u32>().unwrap(), between(HEADER, &format!("case {name}: return \""), "\";"));
    }
    assert_eq!(words.len(), HEADER.matches("case YB_").count());
    let unknown = between(HEADER, "default: return \"", "\";");
    for answer in (0..40).chain([u32::MAX]) {
        assert_eq!(*words.get(&answer).unwrap_or(&unknown), yarrowbleat::answer_text(answer));
    }
}
