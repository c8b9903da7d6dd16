//! The plot is well-formed SVG, and its axes are right.

use benchmark::catalogues::FAMILIES;
use benchmark::page::plot::{Bars, Panel, Series, plot};
use benchmark::page::svg::{Anchor, Svg, escaped};
use std::collections::BTreeSet;

/// The names of a text's elements, each where it begins, if it is well-formed XML as
/// far as this writer goes: elements, attributes in quotes, the five entities.
fn elements(text: &str) -> Result<Vec<String>, String> {
    let (mut open, mut names, mut rest) = (vec![], vec![], text);
    while let Some((before, after)) = rest.split_once('<') {
        characters(before)?;
        let (tag, after) = after.split_once('>').ok_or("a tag without an end")?;
        rest = after;
        if let Some(name) = tag.strip_prefix('/') {
            match open.pop() {
                Some(opened) if opened == name => continue,
                opened => return Err(format!("{name} ends {opened:?}")),
            }
        }
        let (tag, closed) = match tag.strip_suffix('/') {
            Some(tag) => (tag, true),
            None => (tag, false),
        };
        let (name, attributes) = tag.split_once(' ').unwrap_or((tag, ""));
        check_attributes(attributes)?;
        names.push(name.to_string());
        if !closed {
            open.push(name);
        }
    }
    match open.is_empty() && rest.trim().is_empty() {
        true => Ok(names),
        false => Err(format!("left open: {open:?}, after the end: {rest:?}")),
    }
}

/// Text has no bare ampersand.
fn characters(text: &str) -> Result<(), String> {
    let known = ["amp;", "lt;", "gt;", "quot;"];
    let entities = text.split('&').skip(1);
    match entities
        .into_iter()
        .find(|part| !known.iter().any(|name| part.starts_with(name)))
    {
        None => Ok(()),
        Some(part) => Err(format!("a bare ampersand before {part:?}")),
    }
}

/// Attributes are names with values in quotes, and none comes twice.
fn check_attributes(mut text: &str) -> Result<(), String> {
    let mut seen = vec![];
    while !text.trim().is_empty() {
        let (name, rest) = text
            .trim()
            .split_once("=\"")
            .ok_or(format!("no value: {text}"))?;
        let (value, rest) = rest.split_once('"').ok_or(format!("no end: {text}"))?;
        characters(value)?;
        if seen.contains(&name) || !name.chars().all(|c| c.is_alphanumeric() || c == '-') {
            return Err(format!("attribute {name}"));
        }
        seen.push(name);
        text = rest;
    }
    Ok(())
}

#[test]
fn the_check_itself() {
    assert_eq!(
        elements("<a b=\"1\"><c/>x &amp; y</a>\n"),
        Ok(vec!["a".into(), "c".into()])
    );
    for wrong in [
        "<a>",
        "</a>",
        "<a></b>",
        "<a b=1/>",
        "<a b=\"1\" b=\"2\"/>",
        "<a>&</a>",
        "<a/>x",
    ] {
        assert!(elements(wrong).is_err(), "{wrong}");
    }
}

#[test]
fn pictures_are_well_formed() {
    assert_eq!(
        escaped("</text> & \"x\""),
        "&lt;/text&gt; &amp; &quot;x&quot;"
    );
    let mut svg = Svg::new(10.0, 20.0, "text { fill: red }\n");
    svg.text("a", [1.0, 2.0], Anchor::End, "</text> & \"x\"");
    svg.line("a", [0.0, 0.0], [1.0, 1.5]);
    let text = svg.finish("a < b");
    assert_eq!(
        elements(&text),
        Ok(["svg", "title", "style", "rect", "text", "line"]
            .map(String::from)
            .to_vec())
    );
    assert!(
        text.contains(r#"x1="0.0" y1="0.0" x2="1.0" y2="1.5""#),
        "{text}"
    );
}

/// A plot of two families by a call, and of two programs.
fn example() -> String {
    let series = |name, plain, factor: f64| Series {
        name,
        plain,
        points: [64.0, 128.0, 256.0, 512.0]
            .map(|n| (n, factor * n * n))
            .to_vec(),
    };
    let panel = |title| Panel {
        title,
        unit: "milliseconds",
        series: vec![
            series(0, false, 1e-4),
            series(0, true, 2e-4),
            series(1, false, 1e-2),
        ],
    };
    let bars = Bars {
        name: "timing-sparse".to_string(),
        costs: vec![
            ("girvotal <classify>".to_string(), 12.0),
            ("Konclude".to_string(), 240.0),
        ],
    };
    plot(
        &["sparse", "all & equal"],
        &[panel("classify"), panel("change")],
        &[bars],
    )
}

#[test]
fn the_plot() {
    let text = example();
    let names = elements(&text).expect("well-formed");
    let count = |name: &str| names.iter().filter(|found| *found == name).count();
    // Three lines in each panel, and the legend's two samples.
    assert_eq!(count("polyline"), 2 * 3 + 2);
    assert_eq!(count("circle"), 2 * 2 * 4);
    for said in [
        "classify, milliseconds",
        "concepts",
        "all &amp; equal",
        "plain Rust",
        "Konclude",
    ] {
        assert!(text.contains(said), "{said}");
    }
    assert!(text.contains("prefers-color-scheme: dark"));
}

/// A cost ten times higher stands one decade of the axis higher, and nothing lies
/// outside the picture.
#[test]
fn the_axes() {
    let text = example();
    let lines = text
        .lines()
        .filter(|line| line.starts_with("<polyline class=\"line"));
    let places: Vec<Vec<[f64; 2]>> = lines.map(points).collect();
    assert_eq!(places.len(), 6);
    for place in places.iter().flatten() {
        assert!(
            (0.0..860.0).contains(&place[0]) && (0.0..700.0).contains(&place[1]),
            "{place:?}"
        );
    }
    // The first family's line and the second's, a hundred times dearer, are parallel.
    let [first, second] = [&places[0], &places[2]];
    let apart: Vec<f64> = first
        .iter()
        .zip(second)
        .map(|(one, other)| one[1] - other[1])
        .collect();
    assert!(
        apart[0] > 0.0
            && apart
                .iter()
                .all(|distance| (distance - apart[0]).abs() < 0.3)
    );
    let rise = first[0][1] - first[3][1];
    let expected = apart[0] * 64f64.log10() / 2.0;
    assert!(
        (rise - expected).abs() < 0.5,
        "64 times dearer: {rise}, {expected}"
    );
}

/// The places of a line's points.
fn points(line: &str) -> Vec<[f64; 2]> {
    let (_, rest) = line.split_once("points=\"").expect("points");
    let (list, _) = rest.split_once('"').expect("an end");
    let place = |pair: &str| {
        let (x, y) = pair.split_once(',').expect("two numbers");
        [x, y].map(|number| number.parse().expect("a number"))
    };
    list.split(' ').map(place).collect()
}

/// Every family has a colour of its own, and the legend ends above the panels.
#[test]
fn the_legend() {
    let names: Vec<&str> = FAMILIES.iter().map(|family| family.name).collect();
    let series = |name| Series {
        name,
        plain: false,
        points: vec![(64.0, 1.0), (128.0, 2.0)],
    };
    let panel = Panel {
        title: "classify",
        unit: "milliseconds",
        series: (0..names.len()).map(series).collect(),
    };
    let text = plot(&names, &[panel], &[]);
    let colour = |i: usize| {
        let (_, rest) = text
            .split_once(&format!(".fill{i} {{ fill: "))
            .expect("a colour");
        rest.split_once(' ').expect("an end").0
    };
    let colours: BTreeSet<&str> = (0..names.len()).map(colour).collect();
    assert_eq!(colours.len(), names.len());
    let height = |said: &str| -> f64 {
        let line = text
            .lines()
            .find(|line| line.contains(said))
            .expect("a text");
        let (_, rest) = line.split_once(" y=\"").expect("a height");
        rest.split_once('"')
            .expect("an end")
            .0
            .parse()
            .expect("a number")
    };
    let last = height(names[names.len() - 1]);
    assert!(last < height("the library"));
    assert!(height("the library") + 11.0 < height("classify, milliseconds"));
}
