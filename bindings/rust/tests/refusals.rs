//! What refusals hold: kinds and values as docs/JSON.md lists them, fields, and places in UTF-16.

use titaniumbat::{check, parse, Error, Field, Form, Options, Places, Refusal, Values};

fn refused(pattern: &str, flags: &str) -> Refusal {
    let error = parse(pattern, flags).expect_err(pattern);
    error.refusal().expect("it is refused").clone()
}

#[test]
fn kinds() {
    let kinds = [
        ("(?=", "u", "unterminated_pattern", "look_around"),
        ("(", "u", "unterminated_pattern", "capturing_group"),
        ("(?:", "u", "unterminated_pattern", "ignore_group"),
        ("(?<a", "u", "unterminated_pattern", "group_name"),
        (r"\p", "u", "unterminated_pattern", "property_escape"),
        ("[a", "u", "unterminated_pattern", "character_class"),
        ("[[a", "v", "unterminated_pattern", "nested_class"),
        (r"[\q{a", "v", "unterminated_pattern", "class_string_disjunction"),
        ("[b-a]", "u", "character_class_range_out_of_order", "class_atom"),
        ("[b-a]", "v", "character_class_range_out_of_order", "class_set"),
        ("[a&&]", "v", "class_set_expression_invalid_character", "intersection"),
        ("[a--]", "v", "class_set_expression_invalid_character", "subtraction"),
        ("a{18446744073709551616}", "u", "too_large_number_digits", "decimal"),
        (r"\u{100000000}", "u", "too_large_number_digits", "hex"),
        (r"\p{sc=Foo}", "u", "invalid_unicode_property", "name"),
        (r"\p{Foo}", "u", "invalid_unicode_property", "name_or_value"),
    ];
    for (pattern, flags, name, kind) in kinds {
        let refusal = refused(pattern, flags);
        assert_eq!(
            (refusal.name(), refusal.kind(), refusal.values()),
            (name, Some(kind), Values::None),
            "{pattern}"
        );
    }
    for (pattern, flags) in [("*", "u"), ("a", "gg"), (r"\k<a>", "u"), ("a{2,1}", "")] {
        assert_eq!(refused(pattern, flags).kind(), None, "{pattern}");
    }
}

#[test]
fn values() {
    let values = [
        ("a", "x", "unknown_flag", Values::Flag("x")),
        ("a", "gé", "unknown_flag", Values::Flag("é")),
        ("a", "gig", "duplicated_flags", Values::Flag("g")),
        (r"(a)\2", "u", "invalid_indexed_reference", Values::Max(1)),
        (r"\1", "u", "invalid_indexed_reference", Values::Max(0)),
        (
            r"(?<year>a)(?<month>b)|(?<year>c)\k<d>",
            "u",
            "invalid_named_reference",
            Values::Names(vec!["year", "month"]),
        ),
        (r"\k<a>", "u", "invalid_named_reference", Values::Names(vec![])),
        (r"\p{RGI_Emoji}", "u", "invalid_unicode_property_of_strings", Values::Name("RGI_Emoji")),
        (
            r"\P{RGI_Emoji}",
            "v",
            "invalid_unicode_property_name_negative_strings",
            Values::Name("RGI_Emoji"),
        ),
        ("(", "u", "unterminated_pattern", Values::None),
    ];
    for (pattern, flags, name, values) in values {
        let refusal = refused(pattern, flags);
        assert_eq!((refusal.name(), refusal.values()), (name, values), "{pattern}");
    }
    let constructor = Options::new().form(Form::Constructor);
    let error = constructor.check("'a'", r"'\uD800'").unwrap_err();
    assert_eq!(error.refusal().unwrap().values(), Values::Flag(r"\u{D800}"));
}

#[test]
fn fields() {
    for (pattern, flags, field) in [
        ("(", "gg", Field::Flags),
        ("(", "x", Field::Flags),
        ("(", "uv", Field::Flags),
        ("(", "u", Field::Pattern),
        ("a", "é", Field::Flags),
    ] {
        assert_eq!(refused(pattern, flags).field(), field, "{pattern} {flags}");
    }
    let constructor = Options::new().form(Form::Constructor).pattern_offset(10).flags_offset(20);
    for (pattern, flags, field, span) in
        [("a", "'g'", Field::Pattern, "10..11"), ("'a'", "g", Field::Flags, "20..21")]
    {
        let error = constructor.check(pattern, flags).unwrap_err();
        let refusal = error.refusal().unwrap();
        let found = (refusal.name(), refusal.field(), refusal.span().to_string());
        assert_eq!(found, ("invalid_input", field, span.to_owned()));
    }
}

#[test]
fn two_spans() {
    let refusal = refused("(?<a>x)(?<a>y)", "u");
    assert_eq!(refusal.name(), "duplicated_capturing_group_names");
    assert_eq!(
        (refusal.span().range(), refusal.second_span().map(|it| it.range())),
        (3..4, Some(10..11))
    );
    assert_eq!(refusal.spans().count(), 2);
    assert_eq!(refused("(", "").second_span(), None);
}

#[test]
fn places_in_utf16() {
    let (pattern, options) = ("é😀(?P<a>b)", Options::new().pattern_offset(100));
    for (places, span) in [(Places::Bytes, 108..108), (Places::Utf16, 105..105)] {
        let error = options.places(places).check(pattern, "u").unwrap_err();
        assert_eq!(error.refusal().unwrap().span().range(), span);
    }
    let error = options.places(Places::Utf16).flags_offset(50).check("a", "g😀").unwrap_err();
    let refusal = error.refusal().unwrap();
    assert_eq!((refusal.field(), refusal.span().range()), (Field::Flags, 51..53));
    let error = options.places(Places::Utf16).check("😀(?<é>x)(?<é>y)", "").unwrap_err();
    let spans: Vec<_> = error.refusal().unwrap().spans().map(|span| span.range()).collect();
    assert_eq!(spans, [105..106, 112..113]);
}

#[test]
fn offsets_that_are_too_large() {
    let (literal, constructor) = (Options::new(), Options::new().form(Form::Constructor));
    for (options, pattern, least) in [
        (literal, "a", 4),
        (literal, "abcdef", 6),
        (constructor, "'a'", 6),
        (constructor, "'abcdefg'", 9),
    ] {
        let most = u32::MAX - least;
        assert!(options.pattern_offset(most).check(pattern, None).is_ok(), "{pattern}");
        assert_eq!(
            options.pattern_offset(most + 1).check(pattern, None),
            Err(Error::OffsetTooLarge),
            "{pattern}"
        );
    }
    assert!(literal.flags_offset(u32::MAX - 1).check("a", "u").is_ok());
    let error = literal.flags_offset(u32::MAX).parse("a", "u").unwrap_err();
    assert_eq!(
        (error.to_string().as_str(), error.refusal()),
        ("An offset is too large for its text", None)
    );
}

#[test]
fn errors_are_errors() {
    fn boxed(pattern: &str) -> Result<(), Box<dyn std::error::Error + Send + Sync>> {
        Ok(check(pattern, "")?)
    }
    assert_eq!(
        boxed("(").unwrap_err().to_string(),
        "Invalid regular expression: Unterminated capturing group"
    );
    let error = check("(", "").unwrap_err();
    assert_eq!(error.clone(), error);
    assert_ne!(Err(error), check("[", ""));
}
