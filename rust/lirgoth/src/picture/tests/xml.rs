//! A strict reader of the little XML that a picture needs; it panics at what is not well formed.

/// An element with what is inside; `text` is all text right inside it.
#[derive(Debug, Default)]
pub struct Element {
    pub name: String,
    pub attributes: Vec<(String, String)>,
    pub children: Vec<Element>,
    pub text: String,
}

impl Element {
    pub fn attribute(&self, name: &str) -> Option<&str> {
        let found = self.attributes.iter().find(|(key, _)| key == name)?;
        Some(&found.1)
    }

    /// This element and all inside it.
    pub fn all(&self) -> Vec<&Element> {
        let inside = self.children.iter().flat_map(Element::all);
        std::iter::once(self).chain(inside).collect()
    }

    /// The elements of a name, at any depth.
    pub fn named(&self, name: &str) -> Vec<&Element> {
        let mut all = self.all();
        all.retain(|element| element.name == name);
        all
    }

    /// The one element of a class.
    pub fn of_class(&self, class: &str) -> &Element {
        let mut all = self.all();
        all.retain(|element| element.attribute("class") == Some(class));
        assert_eq!(all.len(), 1, "elements of class {class}");
        all[0]
    }
}

/// The root of a file.
pub fn read(file: &str) -> Element {
    let body = file
        .strip_prefix("<?xml version=\"1.0\" encoding=\"UTF-8\"?>\n<")
        .expect("a declaration and a root");
    let (root, rest) = element(body);
    assert_eq!(rest, "\n", "after the root");
    root
}

/// The element whose tag begins after the `<` that was read, and what follows it.
fn element(input: &str) -> (Element, &str) {
    let (tag, mut rest) = input.split_once('>').expect("the end of a tag");
    if let Some(tag) = tag.strip_suffix('/') {
        return (opened(tag), rest);
    }
    let mut element = opened(tag);
    loop {
        let (text, after) = rest.split_once('<').expect("an end tag");
        element.text.push_str(&unescaped(text));
        if let Some(end) = after.strip_prefix('/') {
            let (name, after) = end.split_once('>').expect("the end of a tag");
            assert_eq!(name, element.name, "end tag");
            return (element, after);
        }
        let (child, after) = self::element(after);
        element.children.push(child);
        rest = after;
    }
}

/// The element of a tag, still without what is inside.
fn opened(tag: &str) -> Element {
    let (name, mut rest) = tag.split_once(' ').unwrap_or((tag, ""));
    assert!(is_name(name), "{tag}");
    let mut attributes: Vec<(String, String)> = Vec::new();
    while !rest.is_empty() {
        let (key, value) = rest.split_once("=\"").expect("an attribute");
        let (value, after) = value.split_once('"').expect("the end of a value");
        assert!(is_name(key) && !value.contains('<'), "{tag}");
        assert!(attributes.iter().all(|(other, _)| other != key), "{tag}");
        attributes.push((key.to_string(), unescaped(value)));
        assert!(after.is_empty() || after.starts_with(' '), "{tag}");
        rest = after.strip_prefix(' ').unwrap_or(after);
    }
    Element {
        name: name.to_string(),
        attributes,
        ..Element::default()
    }
}

fn is_name(name: &str) -> bool {
    let is_inside = |c: char| c.is_ascii_alphanumeric() || c == '-';
    name.starts_with(|c: char| c.is_ascii_alphabetic()) && name.chars().all(is_inside)
}

fn unescaped(text: &str) -> String {
    assert!(text.chars().all(is_allowed), "{text:?}");
    let mut parts = text.split('&');
    let mut whole = parts.next().unwrap_or_default().to_string();
    for part in parts {
        let (entity, after) = part.split_once(';').expect("the end of an entity");
        whole.push(match entity {
            "amp" => '&',
            "lt" => '<',
            "gt" => '>',
            _ => panic!("no entity {entity}"),
        });
        whole.push_str(after);
    }
    whole
}

/// The characters that XML 1.0 lets a file hold.
fn is_allowed(c: char) -> bool {
    matches!(c, '\t' | '\n' | '\r' | ' '..='\u{d7ff}' | '\u{e000}'..='\u{fffd}' | '\u{10000}'..)
}
