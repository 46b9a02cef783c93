//! Files that are something else, told by how they begin.

const KINDS: [(&[u8], &str); 16] = [
    (b"\x89PNG", "a PNG picture"),
    (b"\xff\xd8\xff", "a JPEG picture"),
    (b"GIF8", "a GIF picture"),
    (b"II*\0", "a TIFF picture"),
    (b"%PDF", "a PDF document"),
    (b"PK\x03\x04", "a ZIP archive (or an office document); unpack it first"),
    (b"\x1f\x8b", "a gzip file; unpack it first"),
    (b"7z\xbc\xaf", "a 7-Zip archive; unpack it first"),
    (b"ASTM-E57", "an E57 scan; export it as PLY with normals"),
    (b"LASF", "a LAS or LAZ scan, which has no normals; export it as PLY with normals"),
    (b"# .PCD", "a PCD scan; export it as PLY with normals"),
    (b"solid", "an STL file, faces and no scan"),
    (b"# Blender", "an OBJ file, faces and no scan"),
    (b"<!DOCTYPE", "a web page"),
    (b"<html", "a web page"),
    (b"\x7fELF", "a program"),
];

/// True if the bytes are a binary STL file's, by its length.
fn is_binary_stl(head: &[u8]) -> bool {
    let count = head.get(80..84).map(|b| u32::from_le_bytes([b[0], b[1], b[2], b[3]]));
    count.is_some_and(|count| head.len() as u64 == 84 + 50 * u64::from(count)) && head.contains(&0)
}

/// True if the first lines are an OBJ file's.
fn is_obj(head: &[u8]) -> bool {
    let text = String::from_utf8_lossy(&head[..head.len().min(4096)]).into_owned();
    let first = text.lines().map(str::trim).find(|line| !line.is_empty() && !line.starts_with('#'));
    first.is_some_and(|line| ["v ", "vn ", "o ", "g ", "mtllib "].iter().any(|word| line.starts_with(word)))
}

/// What the file is, where that is known and no scan, or `None`.
pub fn other_kind(head: &[u8]) -> Option<&'static str> {
    if let Some((_, kind)) = KINDS.iter().find(|(start, _)| head.starts_with(start)) {
        return Some(kind);
    }
    if head.starts_with(b"\xff\xfe") || head.starts_with(b"\xfe\xff") {
        return Some("text in UTF-16; save it as UTF-8 or ASCII");
    }
    if is_binary_stl(head) {
        return Some("an STL file, faces and no scan");
    }
    if is_obj(head) {
        return Some("an OBJ file; export the scan as PLY with normals");
    }
    head.contains(&0).then_some("a binary file of a kind that is not known here")
}
