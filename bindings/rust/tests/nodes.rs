//! Trees that were worked out by hand from the grammar of ECMA-262: each type of nodes with its fields, places, names and groups.

use std::ops::Range;
use titaniumbat::{
    parse, BoundaryAssertionKind as Boundary, CharacterClassContentsKind as Contents,
    CharacterClassEscapeKind as Escape, CharacterKind as Spelled, Form,
    LookAroundAssertionKind as LookAround, Mode, Modifier, Modifiers, NodeKind, Options, Places,
    Span,
};

/// Requires of a pattern which nodes it has after itself, its disjunction and its first alternative, and where.
fn has(pattern: &str, flags: &str, wanted: &[(NodeKind<'_>, Range<usize>)]) {
    let parsed = parse(pattern, flags).expect(pattern);
    let nodes: Vec<_> = parsed.nodes().map(|node| (node.kind(), node.span().range())).collect();
    let all = 0..pattern.len();
    assert_eq!(nodes[..2], [(NodeKind::Pattern, all.clone()), (NodeKind::Disjunction, all)]);
    assert_eq!(nodes[2].0, NodeKind::Alternative);
    assert_eq!(&nodes[3..], wanted, "{pattern}");
}

/// The same of a pattern that is one term without others in it.
fn is_one(pattern: &str, flags: &str, wanted: NodeKind<'_>) {
    has(pattern, flags, &[(wanted, 0..pattern.len())]);
}

fn character(kind: Spelled, value: u32) -> NodeKind<'static> {
    NodeKind::Character { kind, value }
}

fn symbol(character: char) -> NodeKind<'static> {
    NodeKind::Character { kind: Spelled::Symbol, value: character.into() }
}

#[test]
fn boundaries() {
    for (pattern, flags, kind) in [
        ("^", "", Boundary::Start),
        ("$", "m", Boundary::End),
        (r"\b", "", Boundary::Boundary),
        (r"\B", "", Boundary::NegativeBoundary),
        (r"\A", "u", Boundary::StartBuffer),
        (r"\z", "u", Boundary::EndBuffer),
        (r"\Z", "v", Boundary::EndBufferOptionalNewline),
    ] {
        is_one(pattern, flags, NodeKind::BoundaryAssertion { kind });
    }
    is_one(r"\A", "", character(Spelled::Identifier, 'A'.into()));
    assert!(Options::new().buffer_boundaries(false).check(r"\A", "u").is_err());
}

#[test]
fn look_around_assertions() {
    for (pattern, kind) in [
        ("(?=a)", LookAround::Lookahead),
        ("(?!a)", LookAround::NegativeLookahead),
        ("(?<=a)", LookAround::Lookbehind),
        ("(?<!a)", LookAround::NegativeLookbehind),
    ] {
        let inside = pattern.len() - 2..pattern.len() - 1;
        let wanted = [
            (NodeKind::LookAroundAssertion { kind }, 0..pattern.len()),
            (NodeKind::Disjunction, inside.clone()),
            (NodeKind::Alternative, inside.clone()),
            (symbol('a'), inside),
        ];
        has(pattern, "", &wanted);
    }
}

#[test]
fn quantifiers() {
    for (pattern, min, max, greedy) in [
        ("a*", 0, None, true),
        ("a+?", 1, None, false),
        ("a?", 0, Some(1), true),
        ("a{3}", 3, Some(3), true),
        ("a{4,}?", 4, None, false),
        ("a{5,6}", 5, Some(6), true),
        ("a{0,9007199254740991}", 0, Some(9_007_199_254_740_991), true),
    ] {
        let quantifier = NodeKind::Quantifier { min, max, greedy };
        has(pattern, "", &[(quantifier, 0..pattern.len()), (symbol('a'), 0..1)]);
    }
}

#[test]
fn characters() {
    for (pattern, flags, kind, value) in [
        (r"\cJ", "", Spelled::ControlLetter, 10),
        (r"\x41", "u", Spelled::HexadecimalEscape, 0x41),
        (r"\-", "", Spelled::Identifier, 0x2D),
        (r"\/", "v", Spelled::Identifier, 0x2F),
        (r"\0", "u", Spelled::Null, 0),
        (r"\7", "", Spelled::Octal1, 7),
        (r"\41", "", Spelled::Octal2, 0o41),
        (r"\101", "", Spelled::Octal3, 0o101),
        (r"\n", "", Spelled::SingleEscape, 10),
        (r"\v", "u", Spelled::SingleEscape, 11),
        ("é", "", Spelled::Symbol, 0xE9),
        ("😀", "u", Spelled::Symbol, 0x1F600),
        (r"\u0041", "", Spelled::UnicodeEscape, 0x41),
        (r"\u{1F600}", "v", Spelled::UnicodeEscape, 0x1F600),
        (r"\uD83D\uDE00", "u", Spelled::UnicodeEscape, 0x1F600),
        (r"\uD83D", "u", Spelled::UnicodeEscape, 0xD83D),
    ] {
        is_one(pattern, flags, character(kind, value));
    }
    has("a.", "", &[(symbol('a'), 0..1), (NodeKind::Dot, 1..2)]);
}

#[test]
fn a_pair_without_u_is_two_nodes() {
    let (lead, trail) = (character(Spelled::Symbol, 0xD83D), character(Spelled::Symbol, 0xDE00));
    has("😀a", "", &[(lead, 0..4), (trail, 4..4), (symbol('a'), 4..5)]);
}

#[test]
fn class_escapes() {
    for (pattern, kind) in [
        (r"\d", Escape::D),
        (r"\D", Escape::NegativeD),
        (r"\s", Escape::S),
        (r"\S", Escape::NegativeS),
        (r"\w", Escape::W),
        (r"\W", Escape::NegativeW),
    ] {
        is_one(pattern, "", NodeKind::CharacterClassEscape { kind });
    }
}

#[test]
fn property_escapes() {
    for (pattern, flags, negative, strings, name, value) in [
        (r"\p{Script=Greek}", "u", false, false, "Script", Some("Greek")),
        (r"\p{gc=Lu}", "u", false, false, "gc", Some("Lu")),
        (r"\P{Letter}", "v", true, false, "General_Category", Some("Letter")),
        (r"\P{ASCII}", "v", true, false, "ASCII", None),
        (r"\p{RGI_Emoji}", "v", false, true, "RGI_Emoji", None),
    ] {
        is_one(pattern, flags, NodeKind::UnicodePropertyEscape { negative, strings, name, value });
    }
}

#[test]
fn classes() {
    let class = |negative, strings, kind| NodeKind::CharacterClass { negative, strings, kind };
    has("[]", "", &[(class(false, false, Contents::Union), 0..2)]);
    let wanted = [
        (class(true, false, Contents::Union), 0..10),
        (NodeKind::CharacterClassRange, 2..5),
        (symbol('a'), 2..3),
        (symbol('c'), 4..5),
        (NodeKind::CharacterClassEscape { kind: Escape::W }, 5..7),
        (character(Spelled::SingleEscape, 8), 7..9),
    ];
    has(r"[^a-c\w\b]", "", &wanted);
    let wanted = [
        (class(false, true, Contents::Subtraction), 0..19),
        (NodeKind::ClassStringDisjunction { strings: true }, 1..10),
        (NodeKind::ClassString { strings: true }, 4..6),
        (symbol('a'), 4..5),
        (symbol('b'), 5..6),
        (NodeKind::ClassString { strings: false }, 7..8),
        (symbol('c'), 7..8),
        (NodeKind::ClassString { strings: true }, 9..9),
        (class(false, false, Contents::Intersection), 12..18),
        (symbol('c'), 13..14),
        (symbol('d'), 16..17),
    ];
    has(r"[\q{ab|c|}--[c&&d]]", "v", &wanted);
}

#[test]
fn groups_and_references() {
    let wanted = [
        (NodeKind::CapturingGroup { name: Some("año"), number: 1 }, 0..13),
        (NodeKind::Disjunction, 8..12),
        (NodeKind::Alternative, 8..12),
        (NodeKind::IgnoreGroup { modifiers: None }, 8..12),
        (NodeKind::Disjunction, 11..11),
        (NodeKind::Alternative, 11..11),
        (NodeKind::CapturingGroup { name: None, number: 2 }, 13..15),
        (NodeKind::Disjunction, 14..14),
        (NodeKind::Alternative, 14..14),
        (NodeKind::IndexedReference { index: 2 }, 15..17),
        (NodeKind::NamedReference { name: "año" }, 17..29),
    ];
    has(r"(?<año>(?:))()\2\k<a\u00F1o>", "u", &wanted);
}

#[test]
fn modifiers() {
    let modifiers = |span, enabling, disabling| NodeKind::IgnoreGroup {
        modifiers: Some(Modifiers { span, enabling, disabling }),
    };
    let both = Modifier::I | Modifier::S;
    for (pattern, end, enabling, disabling) in [
        ("(?i:)", 3, Modifier::I, Modifier::default()),
        ("(?-m:)", 4, Modifier::default(), Modifier::M),
        ("(?si-m:)", 6, both, Modifier::M),
    ] {
        let group = modifiers(Span { start: 2, end }, enabling, disabling);
        let inside = pattern.len() - 1..pattern.len() - 1;
        has(
            pattern,
            "",
            &[
                (group, 0..pattern.len()),
                (NodeKind::Disjunction, inside.clone()),
                (NodeKind::Alternative, inside),
            ],
        );
    }
    assert_eq!((both.to_string(), both.bits(), both.is_empty()), ("is".to_owned(), 5, false));
    assert!(
        Modifier::default().is_empty()
            && both.contains(Modifier::S)
            && !both.contains(Modifier::I | Modifier::M)
    );
}

#[test]
fn alternatives() {
    let parsed = parse("a||bc", "").unwrap();
    let disjunction = parsed.root().children().next().unwrap();
    let alternatives: Vec<_> = disjunction
        .children()
        .map(|node| (node.span().range(), node.children().len(), node.text()))
        .collect();
    assert_eq!(alternatives, [(0..1, 1, "a"), (2..2, 0, ""), (3..5, 2, "bc")]);
    assert_eq!(disjunction.parent(), Some(parsed.root()));
}

#[test]
fn groups() {
    let parsed = parse("(?<year>(a)|b)(?:(?<year>c))?|(?<day>d)", "").unwrap_err();
    assert_eq!(parsed.refusal().unwrap().name(), "duplicated_capturing_group_names");
    let parsed = parse("(?<year>(a)|b)|(?:(?<year>c))?(?<day>d)", "").unwrap();
    let groups: Vec<_> = parsed.groups().map(|it| (it.number, it.name, it.node.text())).collect();
    assert_eq!(
        groups,
        [
            (1, Some("year"), "(?<year>(a)|b)"),
            (2, None, "(a)"),
            (3, Some("year"), "(?<year>c)"),
            (4, Some("day"), "(?<day>d)")
        ]
    );
    assert_eq!((parsed.groups().len(), parsed.groups().next_back()), (4, parsed.group(4)));
    assert_eq!((parsed.group(0), parsed.group(5), parsed.group(u32::MAX)), (None, None, None));
    assert_eq!(parsed.group(3).unwrap().name, Some("year"));
}

#[test]
fn empty_patterns() {
    for (form, pattern, source, span) in
        [(Form::Literal, "", "(?:)", 0..4), (Form::Constructor, "''", "\"(?:)\"", 1..5)]
    {
        let parsed = Options::new().form(form).parse(pattern, None).unwrap();
        assert_eq!(
            (parsed.source(), parsed.root().span().range(), parsed.root().text()),
            (source, span, "(?:)")
        );
        assert_eq!((parsed.canonical(), parsed.mode()), ("(?:)", Mode::Legacy));
        assert_eq!(
            parsed.nodes().nth(3).unwrap().kind(),
            NodeKind::IgnoreGroup { modifiers: None }
        );
    }
}

#[test]
fn arguments_of_regexp() {
    let options = Options::new().form(Form::Constructor).pattern_offset(100).flags_offset(200);
    let parsed = options.parse(r#""\\d\x41é""#, "'u'").unwrap();
    assert_eq!((parsed.canonical(), parsed.mode()), (r"\dAé", Mode::Unicode));
    let nodes: Vec<_> = parsed
        .nodes()
        .skip(3)
        .map(|node| (node.kind(), node.span().range(), node.text()))
        .collect();
    let wanted = [
        (NodeKind::CharacterClassEscape { kind: Escape::D }, 101..104, r"\\d"),
        (character(Spelled::HexadecimalEscape, 0x41), 104..108, r"\x41"),
        (symbol('é'), 108..110, "é"),
    ];
    assert_eq!(nodes, wanted);
    let continued = "'a\\\nb'";
    let standard = options.standard_strings(true).canonical(continued, None);
    assert_eq!(standard.as_deref(), Ok("ab"));
    let only_continued = options.standard_strings(true).parse("'\\\n'", None).unwrap();
    assert_eq!(only_continued.canonical(), "(?:)");
    assert!(only_continued.nodes().all(|node| node.text().len() <= 4));
}

#[test]
fn places_in_utf16() {
    let options = Options::new().places(Places::Utf16).pattern_offset(7);
    let parsed = options.parse("é😀(?i:a)", "u").unwrap();
    let nodes: Vec<_> = parsed.nodes().map(|node| (node.span().range(), node.text())).collect();
    let whole = (7..16, "é😀(?i:a)");
    let wanted = [
        whole.clone(),
        whole.clone(),
        whole,
        (7..8, "é"),
        (8..10, "😀"),
        (10..16, "(?i:a)"),
        (14..15, "a"),
        (14..15, "a"),
        (14..15, "a"),
    ];
    assert_eq!(nodes, wanted);
    let modifiers = Modifiers {
        span: Span { start: 12, end: 13 },
        enabling: Modifier::I,
        disabling: Modifier::default(),
    };
    assert_eq!(
        parsed.nodes().nth(5).unwrap().kind(),
        NodeKind::IgnoreGroup { modifiers: Some(modifiers) }
    );
    let pair = Options::new().places(Places::Utf16).parse("😀", None).unwrap();
    let halves: Vec<_> =
        pair.nodes().skip(3).map(|node| (node.span().range(), node.text())).collect();
    assert_eq!(halves, [(0..2, "😀"), (2..2, "")]);
}

#[test]
fn nodes_and_patterns_compare() {
    let (one, same, other) =
        (parse("(a)", "").unwrap(), parse("(a)", "g").unwrap(), parse("(b)", "").unwrap());
    assert_eq!(one, same);
    assert_ne!(one, other);
    assert_eq!(one.root(), one.nodes().next().unwrap());
    assert_ne!(one.root(), same.root());
    assert_eq!(one.root().kind(), other.root().kind());
    assert_eq!(
        format!("{:?}", one.groups().next().unwrap().node),
        "CapturingGroup { name: None, number: 1 } at 0..3"
    );
    assert!(format!("{one:?}").starts_with(
        "Parsed { source: \"(a)\", mode: Legacy, canonical: \"(a)\", nodes: [Pattern at 0..3, "
    ));
}
