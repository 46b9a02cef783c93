//! `yarrowbleat page`: what a page says.

mod common;
use common::*;
use std::fs;

/// The numbers of a table's column.
fn column(page: &str, table: &str, at: usize) -> Vec<String> {
    let body = page.split(&format!("id=\"{table}\"")).nth(1).unwrap().split("</tbody>").next().unwrap();
    let rows = body.split("<tr").skip(2).map(|row| row.split("<td>").nth(at + 1).unwrap().split('<').next().unwrap());
    rows.map(str::to_string).collect()
}

/// The page says the counts in words, marks seeds and points, and needs nothing from elsewhere.
#[test]
fn a_page() {
    let here = folder("page");
    let out = here.join("wall.html").to_str().unwrap().to_string();
    let hole = data("hole.csv");
    assert_eq!(said(&["page", &hole, "-o", &out]), "");
    let page = fs::read_to_string(&out).unwrap();
    let summary = "451 faces were laid, 3 of them as seeds. They reach F + 2S = 451 + 2 · 3 = 457 of 463 points; \
        6 are not reached. 457 edges are open, and the faces' area is ";
    assert!(page.contains(summary) && page.contains("Not reached: 457, 458, 459, 460, 461, 462."));
    let count = |table, at, word: &str| column(&page, table, at).iter().filter(|cell| *cell == word).count();
    assert_eq!((count("points", 4, "yes"), count("points", 4, "no"), count("faces", 4, "seed")), (457, 6, 3));
    assert_eq!(column(&page, "faces", 0).len(), 451);
    for outside in ["http:", "https:", "src=", "href=", "@import", "url("] {
        assert!(!page.contains(outside), "{outside}");
    }
    assert!(!page.contains("{{"));
    let odd = file(&here, "<b>&.csv", fs::read(&hole).unwrap());
    said(&["page", &odd, "-o", &out, "--force"]);
    assert!(fs::read_to_string(&out).unwrap().contains("&lt;b&gt;&amp;.csv"));
    let before = fs::read(&out).unwrap();
    assert_eq!(failed(&["page", &case("two-points"), "-o", &out, "--force"]).0, 28);
    assert_eq!(fs::read(&out).unwrap(), before);
}
