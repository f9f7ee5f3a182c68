//! What must hold of each tree, over many literals: that children, parents, descendants and walks fit together, and places too.

mod common;

use common::literals;
use std::iter;
use titaniumbat::{canonical, check, parse, Event, Node, NodeKind, Options, Parsed, Places};

/// Each literal that is read.
fn trees() -> impl Iterator<Item = (String, String, Parsed)> {
    literals().into_iter().filter_map(|(pattern, flags)| {
        let parsed = parse(&pattern, &flags).ok()?;
        Some((pattern, flags, parsed))
    })
}

#[test]
fn there_are_literals() {
    let (all, read) = (literals().len(), trees().count());
    println!("{all} literals, {read} read");
    assert!(read >= 20 && read * 10 > all * 9);
}

#[test]
fn children_are_the_descendants() {
    for (_, _, parsed) in trees() {
        assert_eq!(parsed.nodes().len(), 1 + parsed.root().descendants().len());
        for node in parsed.nodes() {
            let within =
                node.children().flat_map(|child| iter::once(child).chain(child.descendants()));
            assert!(within.eq(node.descendants()));
            assert_eq!(node.children().len(), node.children().count());
            assert!(node.children().all(|child| child.parent() == Some(node)));
            assert_eq!(parsed.nodes().nth(node.index()), Some(node));
        }
        assert_eq!(parsed.root().parent(), None);
        assert!(parsed.nodes().rev().eq(parsed.nodes().collect::<Vec<_>>().into_iter().rev()));
    }
}

#[test]
fn each_node_has_the_children_of_its_type() {
    for (_, _, parsed) in trees() {
        for node in parsed.nodes() {
            let kinds: Vec<_> = node.children().map(Node::kind).collect();
            assert!(may_hold(node.kind(), &kinds), "{node:?} {kinds:?}");
        }
    }
}

fn may_hold(node: NodeKind<'_>, children: &[NodeKind<'_>]) -> bool {
    use NodeKind as K;
    match node {
        K::Pattern
        | K::LookAroundAssertion { .. }
        | K::CapturingGroup { .. }
        | K::IgnoreGroup { .. } => children == [K::Disjunction],
        K::Disjunction => !children.is_empty() && children.iter().all(|it| *it == K::Alternative),
        K::Alternative => children.iter().copied().all(is_term),
        K::Quantifier { .. } => children.len() == 1 && is_term(children[0]),
        K::CharacterClass { .. } => children.iter().copied().all(is_item),
        K::CharacterClassRange => {
            children.len() == 2 && children.iter().all(|it| matches!(it, K::Character { .. }))
        }
        K::ClassStringDisjunction { .. } => {
            children.iter().all(|it| matches!(it, K::ClassString { .. }))
        }
        K::ClassString { .. } => children.iter().all(|it| matches!(it, K::Character { .. })),
        _ => children.is_empty(),
    }
}

fn is_term(node: NodeKind<'_>) -> bool {
    use NodeKind as K;
    !matches!(
        node,
        K::Pattern
            | K::Disjunction
            | K::Alternative
            | K::CharacterClassRange
            | K::ClassStringDisjunction { .. }
            | K::ClassString { .. }
    )
}

fn is_item(node: NodeKind<'_>) -> bool {
    use NodeKind as K;
    matches!(
        node,
        K::Character { .. }
            | K::CharacterClassEscape { .. }
            | K::UnicodePropertyEscape { .. }
            | K::CharacterClass { .. }
            | K::CharacterClassRange
            | K::ClassStringDisjunction { .. }
    )
}

#[test]
fn walks_enter_and_leave() {
    for (_, _, parsed) in trees() {
        for start in parsed.nodes().step_by(29) {
            let mut walk = start.walk();
            let (mut open, mut entered) = (Vec::new(), Vec::new());
            for left in (0..2 * (1 + start.descendants().len())).rev() {
                match walk.next().expect("there are more steps") {
                    Event::Enter(node) => {
                        assert_eq!(open.last().copied(), node.parent().filter(|_| node != start));
                        open.push(node);
                        entered.push(node);
                    }
                    Event::Leave(node) => assert_eq!(open.pop(), Some(node)),
                }
                assert_eq!(walk.len(), left);
            }
            assert_eq!((walk.next(), walk.next(), open.len()), (None, None, 0));
            assert!(iter::once(start).chain(start.descendants()).eq(entered));
        }
    }
}

#[test]
fn places_are_nested_and_in_order() {
    for (pattern, flags, parsed) in trees() {
        for node in parsed.nodes() {
            let mut at = node.span().start;
            for child in node.children() {
                assert!(
                    at <= child.span().start && child.span().end <= node.span().end,
                    "{pattern} {child:?}"
                );
                at = child.span().end;
            }
            if !pattern.is_empty() {
                assert_eq!(&pattern[node.span().range()], node.text());
            }
        }
        let units = Options::new().places(Places::Utf16).parse(&pattern, flags.as_str()).unwrap();
        assert_eq!(units.nodes().len(), parsed.nodes().len());
        for (unit, byte) in units.nodes().zip(parsed.nodes()).take(1000) {
            assert_eq!(
                (unit.text(), unit.span().len() as usize),
                (byte.text(), byte.text().encode_utf16().count())
            );
        }
    }
}

#[test]
fn groups_have_their_numbers() {
    for (_, _, parsed) in trees() {
        let found = parsed.nodes().filter_map(|node| match node.kind() {
            NodeKind::CapturingGroup { number, name } => Some((number, name, node)),
            _ => None,
        });
        assert!(found.eq(parsed.groups().map(|it| (it.number, it.name, it.node))));
        assert!(parsed
            .groups()
            .zip(1..)
            .all(|(group, number)| group.number == number && parsed.group(number) == Some(group)));
    }
}

#[test]
fn spellings_are_canonical() {
    for (pattern, flags) in literals() {
        let parsed = parse(&pattern, &flags);
        assert_eq!(check(&pattern, &flags).is_ok(), parsed.is_ok());
        if let Ok(parsed) = parsed {
            assert_eq!(canonical(&pattern, &flags).as_deref(), Ok(parsed.canonical()));
            assert_eq!(
                canonical(parsed.canonical(), &flags).as_deref(),
                Ok(parsed.canonical()),
                "{pattern}"
            );
        }
    }
}
