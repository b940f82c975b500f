//! The form of pictures: well-formed, and inside their pages.

use super::*;

#[test]
fn every_picture_is_well_formed_and_inside_its_page() {
    for picture in pictures(5) {
        assert_eq!(form_fault(&picture), None);
        let [width, height] = ["width", "height"].map(|name| values(&picture, name)[0]);
        for (name, end) in [("x", width), ("cx", width), ("y", height)] {
            let inside = |value: &f64| (0.0..=end).contains(value);
            assert!(values(&picture, name).iter().all(inside), "{name} to {end}");
        }
    }
}

#[test]
fn the_form_test_finds_faults() {
    assert_eq!(form_fault("<a b=\"1\"><c/>x &amp; y</a>\n"), None);
    for wrong in [
        "<a>",
        "</a>",
        "<a></b>",
        "<a><b></a></b>",
        "<a>&</a>",
        "<a b=\"1></a>",
        "<a b=1/>",
        "x<a/>",
        "<a",
    ] {
        assert!(form_fault(wrong).is_some(), "{wrong}");
    }
}

/// The numbers that an attribute has in a picture.
fn values(picture: &str, name: &str) -> Vec<f64> {
    let before = format!(" {name}=\"");
    let pieces = picture.split(&before).skip(1);
    pieces
        .map(|piece| piece.split('"').next().unwrap().parse().unwrap())
        .collect()
}

/// What is wrong with a document's form: tags that do not match, values without quotes, signs
/// that are not escaped, words outside of all elements.
fn form_fault(document: &str) -> Option<String> {
    let mut open = Vec::new();
    let mut pieces = document.split('<');
    let mut text = pieces.next().unwrap_or("");
    for piece in pieces {
        if text_fault(text, open.is_empty()) {
            return Some(text.to_string());
        }
        let (tag, rest) = match piece.split_once('>') {
            Some(parts) => parts,
            None => return Some(piece.to_string()),
        };
        let name = tag
            .split([' ', '/'])
            .find(|name| !name.is_empty())
            .unwrap_or("");
        let matches = match (tag.starts_with('/'), tag.ends_with('/')) {
            (true, _) => open.pop() == Some(name),
            (false, true) => true,
            (false, false) => {
                open.push(name);
                true
            }
        };
        if !matches || attribute_fault(tag) {
            return Some(tag.to_string());
        }
        text = rest;
    }
    (!open.is_empty() || text_fault(text, true)).then(|| "the end".to_string())
}

fn text_fault(text: &str, outside: bool) -> bool {
    let escaped = ["amp;", "lt;", "gt;"];
    let bare = |piece: &str| !escaped.iter().any(|sign| piece.starts_with(sign));
    text.contains('>') || text.split('&').skip(1).any(bare) || (outside && !text.trim().is_empty())
}

/// Whether an equals sign stands without a quote behind it, or a quote is left open.
fn attribute_fault(tag: &str) -> bool {
    let outside: String = tag.split('"').step_by(2).collect::<Vec<&str>>().join("\"");
    tag.matches('"').count() % 2 == 1
        || outside
            .split('=')
            .skip(1)
            .any(|rest| !rest.starts_with('"'))
}
