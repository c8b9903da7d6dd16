//! The page's script in Chromium, where that is installed.

use std::process::Command;

use crate::picture::{drawn, state};
use crate::support::{Folder, say};

/// Puts a filter into the box and tells which places are seen, one a line; those that fit have `*`.
const ASK: &str = r#"<script>
const box = document.querySelector("input");
const told = [];
for (const words of FILTERS) {
  box.value = words;
  box.oninput();
  told.push("filter " + words, document.querySelector("output").value);
  for (const place of document.querySelectorAll("main details, main p")) {
    if (place.closest("[hidden]")) continue;
    const head = place.querySelector("summary") || place;
    const names = [...head.querySelectorAll("bdi")].map(name => name.textContent).join(" = ");
    told.push((place.classList.contains("fits") ? "* " : "  ") + names);
  }
}
document.body.innerHTML = "<pre></pre>";
document.querySelector("pre").textContent = "TOLD" + told.join("|") + "TOLD";
</script>
</body>"#;

/// What the page shows for each filter; none without a browser.
fn shown(page: &str, filters: &[&str]) -> Option<Vec<String>> {
    let folder = Folder::new();
    let list: Vec<String> = filters.iter().map(|words| format!("{words:?}")).collect();
    let ask = ASK.replace("FILTERS", &format!("[{}]", list.join(", ")));
    folder.write("page.html", page.replace("</body>", &ask));
    let run = Command::new("timeout")
        .args([
            "120",
            "chromium",
            "--headless=new",
            "--no-sandbox",
            "--disable-gpu",
        ])
        .args(["--dump-dom", "page.html"])
        .current_dir(&folder.path)
        .env("HOME", &folder.path)
        .output();
    let output = run.map(|run| String::from_utf8_lossy(&run.stdout).into_owned());
    let output = output.unwrap_or_default();
    let told = output.split("TOLD").nth(1)?;
    Some(told.split('|').map(str::to_owned).collect())
}

#[test]
fn filtered() {
    let text = "kind place, \"Straße am See\", \"Großer Zeltplatz\", \"Café Süd\", pitch, \"Cafe Nord\"\n\
                \"Straße am See\" < place\n\"Café Süd\" < \"Straße am See\"\n\
                \"Cafe Nord\" < place\npitch < \"Café Süd\"\npitch < \"Großer Zeltplatz\"\n";
    let page = drawn(&state(text), &["--html"]);
    let filters = ["cafe", "SÜD cafe", "see strasse", "zelt", "pitch place", ""];
    let Some(told) = shown(&page, &filters) else {
        say("page: NOT LOOKED AT, there is no chromium");
        return;
    };
    let seen = |words: &str| -> Vec<&str> {
        let from = told
            .iter()
            .position(|line| *line == format!("filter {words}"));
        let after = told.iter().skip(from.expect("a filter") + 1);
        let lines = after.take_while(|line| !line.starts_with("filter "));
        lines.map(String::as_str).collect()
    };
    // Accents don't matter; what lies above and below is seen as well.
    let cafe = [
        "2 of 6 kinds",
        "  place",
        "* Cafe Nord",
        "  Straße am See",
        "* Café Süd",
    ];
    assert_eq!(seen("cafe")[..5], cafe);
    // Several words all fit, in any order, and case does not matter.
    let both = ["1 of 6 kinds", "  place", "  Straße am See", "* Café Süd"];
    assert_eq!(seen("SÜD cafe")[..4], both);
    let below = ["1 of 6 kinds", "  place", "* Straße am See", "  Café Süd"];
    assert_eq!(seen("see strasse")[..4], below);
    assert_eq!(seen("zelt")[..2], ["1 of 6 kinds", "* Großer Zeltplatz"]);
    assert!(seen("zelt").contains(&"  pitch"), "what lies below it");
    assert_eq!(seen("pitch place"), ["0 of 6 kinds"]);
    assert_eq!(seen("").len(), 8, "all places and no count");
}
