//! The campsite of docs/: its text and its page are those that data/campsite.gv gives. Its tree and
//! what it answers are lines of docs/CAMPSITE.md, which are run.

use std::fs;
use std::path::Path;

use crate::picture::on_page;
use crate::support::Folder;

/// A file of docs/.
fn document(name: &str) -> Vec<u8> {
    let docs = Path::new(env!("CARGO_MANIFEST_DIR")).join("../docs");
    fs::read(docs.join(name)).expect("a file of docs/")
}

#[test]
fn text() {
    let folder = Folder::new();
    let text = String::from_utf8(folder.read("campsite.gv")).expect("UTF-8");
    let indented: String = text
        .lines()
        .map(|line| match line {
            "" => "\n".to_owned(),
            _ => format!("    {line}\n"),
        })
        .collect();
    let page = String::from_utf8(document("CAMPSITE.md")).expect("UTF-8");
    assert!(
        page.contains(&indented),
        "docs/CAMPSITE.md has another text"
    );
}

#[test]
fn page() {
    let folder = Folder::new();
    folder.done("classify campsite.gv -o campsite.state");
    let line = "SOURCE_DATE_EPOCH=1767225600 girvotal tree campsite.state --html -o campsite.html";
    assert_eq!(folder.shell(line).0, 0);
    let page = folder.read("campsite.html");
    assert!(
        page == document("campsite.html"),
        "docs/campsite.html is not what this makes of data/campsite.gv: {line}"
    );
    let places = on_page(std::str::from_utf8(&page).expect("UTF-8"));
    let firsts = places.iter().filter(|place| place.first);
    assert!(firsts.map(|place| place.names.len()).sum::<usize>() >= 30);
    assert!(places.iter().any(|place| !place.first));
}

/// What docs/CAMPSITE.md says of a change.
#[test]
fn parted() {
    let folder = Folder::new();
    folder.done("classify campsite.gv -o campsite.state");
    let equal = "  online-pitch = pitch\n";
    assert!(folder.done("tree campsite.state").contains(equal));
    folder.done("withdraw campsite.state 'field < has some radio-mast'");
    let tree = folder.done("tree campsite.state");
    assert!(
        !tree.contains(equal) && tree.contains("\n  pitch\n"),
        "{tree}"
    );
}
