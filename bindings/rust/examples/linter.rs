//! Warns of lookbehinds, of groups without a name and of property escapes, with a line under each. The words are literals:
//!
//!     cargo run --example linter '/(?<=\$)(\d+)/u'

use std::env;
use titaniumbat::{parse, Field, LookAroundAssertionKind, Node, NodeKind, Span};

const SHOWN: [&str; 4] =
    [r"/(?<=\$)(\d+)\.(?<cents>\d\d)/", r"/é+(?:[\p{Script=Greek}\d]|(x))/u", "/[z-a]/u", "/a/gg"];

/// What there is to say of a node.
fn warning(node: Node) -> Option<&'static str> {
    match node.kind() {
        NodeKind::LookAroundAssertion {
            kind: LookAroundAssertionKind::Lookbehind | LookAroundAssertionKind::NegativeLookbehind,
        } => Some("older engines have no lookbehinds"),
        NodeKind::CapturingGroup { name: None, .. } => Some("a group without a name"),
        NodeKind::UnicodePropertyEscape { .. } => Some("older engines have no property escapes"),
        _ => None,
    }
}

/// Shows carets under a span of a text, which has so many columns before it.
fn mark(columns: usize, text: &str, span: Span, what: &str) {
    let start = columns + text[..span.range().start].chars().count();
    let width = text[span.range()].chars().count().max(1);
    println!("{:start$}{} {what}", "", "^".repeat(width));
}

fn lint(literal: &str) {
    println!("{literal}");
    let inside = literal.strip_prefix('/').and_then(|it| it.rsplit_once('/'));
    let (pattern, flags) = inside.expect("a literal stands between slashes");
    let parsed = match parse(pattern, flags) {
        Ok(parsed) => parsed,
        Err(error) => {
            let refusal = error.refusal().expect("there is memory");
            let (columns, text) = match refusal.field() {
                Field::Pattern => (1, pattern),
                Field::Flags => (pattern.chars().count() + 2, flags),
            };
            return mark(columns, text, refusal.span(), refusal.message());
        }
    };
    for node in parsed.nodes() {
        if let Some(what) = warning(node) {
            mark(1, pattern, node.span(), what);
        }
    }
}

fn main() {
    let words: Vec<String> = env::args().skip(1).collect();
    if words.is_empty() {
        SHOWN.into_iter().for_each(lint);
    }
    words.iter().for_each(|literal| lint(literal));
}
