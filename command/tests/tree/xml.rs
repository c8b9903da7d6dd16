//! A strict parser for the XML that pages are made of: elements, attributes in quotes, character
//! references, and nothing else after the document type.

/// An element.
#[derive(Debug, Default)]
pub struct Element {
    pub name: String,
    pub attributes: Vec<(String, String)>,
    pub children: Vec<Node>,
}

/// What stands in an element.
#[derive(Debug)]
pub enum Node {
    Element(Element),
    Text(String),
}

impl Element {
    pub fn attribute(&self, name: &str) -> Option<&str> {
        let named = self.attributes.iter().find(|(other, _)| other == name);
        named.map(|(_, value)| value.as_str())
    }

    /// The elements directly in it.
    pub fn elements(&self) -> impl Iterator<Item = &Element> {
        self.children.iter().filter_map(|node| match node {
            Node::Element(element) => Some(element),
            Node::Text(_) => None,
        })
    }

    /// The one element of a name directly in it.
    pub fn the(&self, name: &str) -> &Element {
        let mut named = self.elements().filter(|element| element.name == name);
        let element = named.next().unwrap_or_else(|| panic!("{name} is missing"));
        assert!(named.next().is_none(), "one {name}");
        element
    }

    /// It and all elements in it, from top to bottom.
    pub fn all(&self) -> Vec<&Element> {
        let mut all = vec![];
        let mut left = vec![self];
        while let Some(element) = left.pop() {
            all.push(element);
            let within: Vec<&Element> = element.elements().collect();
            left.extend(within.into_iter().rev());
        }
        all
    }

    /// All its text.
    pub fn text(&self) -> String {
        let text = |node: &Node| match node {
            Node::Element(element) => element.text(),
            Node::Text(text) => text.clone(),
        };
        self.children.iter().map(text).collect()
    }
}

/// The elements that HTML has without an end.
const EMPTY: [&str; 2] = ["meta", "input"];

/// The document's element.
pub fn parse(document: &str) -> Result<Element, String> {
    if let Some(c) = document.chars().find(|&c| !allowed(c)) {
        return Err(format!("the character {c:?}"));
    }
    let mut rest = document
        .strip_prefix("<!DOCTYPE html>\n")
        .ok_or("the document type is missing")?;
    let mut open = vec![Element::default()];
    while let Some(at) = rest.find('<') {
        let top = open.last_mut().expect("the document itself");
        add_text(top, &rest[..at])?;
        let end = rest[at..].find('>').ok_or("a tag is not closed")? + at;
        let tag = &rest[at + 1..end];
        rest = &rest[end + 1..];
        if let Some(name) = tag.strip_prefix('/') {
            let closed = open.pop().expect("an element");
            if closed.name != name || open.is_empty() {
                return Err(format!("</{name}> closes <{}>", closed.name));
            }
            let top = open.last_mut().expect("the document itself");
            top.children.push(Node::Element(closed));
        } else if let Some(tag) = tag.strip_suffix(" /") {
            let element = start(tag)?;
            if !EMPTY.contains(&element.name.as_str()) {
                return Err(format!("<{tag} /> is open in HTML"));
            }
            top.children.push(Node::Element(element));
        } else {
            open.push(start(tag)?);
        }
    }
    let mut document = open.pop().expect("the document itself");
    if !open.is_empty() {
        return Err(format!("<{}> is not closed", document.name));
    }
    add_text(&mut document, rest)?;
    let [Node::Element(_), Node::Text(end)] = document.children.as_slice() else {
        return Err("not one element".into());
    };
    if end != "\n" {
        return Err(format!("{end:?} after the end"));
    }
    match document.children.swap_remove(0) {
        Node::Element(root) => Ok(root),
        Node::Text(_) => Err("no element".into()),
    }
}

/// Whether XML may have a character; a page has no carriage return.
fn allowed(c: char) -> bool {
    matches!(c, '\t' | '\n' | ' '..='\u{fffd}' | '\u{10000}'..)
}

fn add_text(element: &mut Element, text: &str) -> Result<(), String> {
    if text.contains("]]>") {
        return Err("]]> in text".into());
    }
    if !text.is_empty() {
        element.children.push(Node::Text(decoded(text)?));
    }
    Ok(())
}

/// The element of a start tag.
fn start(tag: &str) -> Result<Element, String> {
    let name_end = tag.find(' ').unwrap_or(tag.len());
    let mut element = Element {
        name: word(&tag[..name_end])?,
        ..Element::default()
    };
    let mut rest = &tag[name_end..];
    while !rest.is_empty() {
        let wrong = || format!("<{tag}>");
        let (name, value) = rest.split_once("=\"").ok_or_else(wrong)?;
        let name = word(name.strip_prefix(' ').ok_or_else(wrong)?)?;
        let (value, after) = value.split_once('"').ok_or_else(wrong)?;
        if value.contains('<') || element.attribute(&name).is_some() {
            return Err(wrong());
        }
        element.attributes.push((name, decoded(value)?));
        rest = after;
    }
    Ok(element)
}

/// A name of an element or an attribute.
fn word(name: &str) -> Result<String, String> {
    let fits = |c: char| c.is_ascii_lowercase() || c.is_ascii_digit() || c == '-';
    match name.starts_with(|c: char| c.is_ascii_lowercase()) && name.chars().all(fits) {
        true => Ok(name.to_owned()),
        false => Err(format!("the name {name:?}")),
    }
}

/// A text with its character references followed.
fn decoded(text: &str) -> Result<String, String> {
    let mut parts = text.split('&');
    let mut decoded = parts.next().unwrap_or_default().to_owned();
    for part in parts {
        let (name, rest) = part.split_once(';').ok_or("an open reference")?;
        decoded.push(match name {
            "amp" => '&',
            "lt" => '<',
            "gt" => '>',
            "quot" => '"',
            "#39" => '\'',
            _ => return Err(format!("the reference {name:?}")),
        });
        decoded += rest;
    }
    Ok(decoded)
}

#[test]
fn wrong_documents() {
    let page = |body: &str| format!("<!DOCTYPE html>\n<html>{body}</html>\n");
    let body = "a<p id=\"x\" class=\"&lt;&#39;\">&amp;amp;</p><input name=\"y\" />]]&gt;";
    let html = parse(&page(body)).expect("a right one");
    assert_eq!(html.text(), "a&amp;]]>");
    assert_eq!(html.the("p").attribute("class"), Some("<'"));
    assert_eq!(html.all().len(), 3);
    for wrong in [
        "<p>",
        "</p>",
        "<p></P>",
        "<b><i></b></i>",
        "<p/>",
        "<p />",
        "<p id=x></p>",
        "<p id='x'></p>",
        "<p hidden></p>",
        "<p id=\"x\" id=\"y\"></p>",
        "<p id=\"x\"class=\"y\"></p>",
        "<p id=\"<\"></p>",
        "&nbsp;",
        "& ",
        "a & b",
        "<",
        "]]>",
        "<!-- -->",
        "\u{1}",
        "\u{ffff}",
    ] {
        assert!(parse(&page(wrong)).is_err(), "{wrong}");
    }
    for wrong in ["", "<html></html>\n", "<!DOCTYPE html>\n<p></p><p></p>\n"] {
        assert!(parse(wrong).is_err(), "{wrong}");
    }
}
