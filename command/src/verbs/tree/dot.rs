//! The tree as a graph for Graphviz.

use super::arranged::Tree;

/// The graph's first lines: the highest entries stand at the left, and arrows point to them.
const HEAD: &str = "\
digraph kinds {
  rankdir=LR;
  node [shape=box, fontname=\"sans-serif\"];
  edge [dir=back];
";

/// A node for each entry, and an edge between each and every entry directly below it. Kinds in no
/// axiom are dashed.
pub fn graph(tree: &Tree<'_>) -> String {
    let mut text = String::from(HEAD);
    for place in tree.places().iter().filter(|place| place.first) {
        let entry = tree.entry(place.entry);
        let (id, label) = (entry.id(), escaped(&entry.names.join(" = ")));
        let style = if entry.used { "" } else { ", style=dashed" };
        text += &format!("  {id} [label=\"{label}\"{style}];\n");
    }
    for place in tree.places() {
        if let Some(above) = place.above {
            let [above, below] = [above, place.entry].map(|entry| tree.entry(entry).id());
            text += &format!("  {above} -> {below};\n");
        }
    }
    text + "}\n"
}

/// A label in quotes; what looks like a character reference would be read as one.
fn escaped(label: &str) -> String {
    let label = label.replace('\\', "\\\\").replace('"', "\\\"");
    label.replace('&', "&amp;")
}
