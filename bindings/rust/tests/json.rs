//! Compares all that this crate says with what the program writes as JSON, whose path `TITANIUMBAT_PROGRAM` names: trees node by node with their places in bytes and in
//! UTF-16, groups, names, spellings and refusals.

mod common;

use common::{literals, rows, Row};
use std::env;
use std::fmt::Write as _;
use std::io::Write as _;
use std::process::{Command, Stdio};
use std::thread;
use titaniumbat::{
    Error, Field, Form, Mode, Node, NodeKind, Options, Parsed, Places, Refusal, Span, Values,
};

/// What is asked of one pattern, by the program and by this crate.
struct Question {
    form: Form,
    dialect: &'static str,
    options: Options,
    pattern: String,
    flags: Option<String>,
}

/// The rows of the table, and the literals, but for those that are too deep for `tree`, which calls itself.
fn questions() -> Vec<Question> {
    let rows =
        rows().into_iter().map(|Row { form, dialect, options, pattern, flags, .. }| Question {
            form,
            dialect,
            options: options.pattern_offset(1000).flags_offset(2000),
            pattern,
            flags,
        });
    let literals = literals().into_iter().map(|(pattern, flags)| Question {
        form: Form::Literal,
        dialect: "",
        options: Options::new().pattern_offset(1000).flags_offset(2000),
        pattern,
        flags: Some(flags),
    });
    let is_flat = |question: &Question| question.pattern.matches(['(', '[']).count() < 300;
    rows.chain(literals).filter(is_flat).collect()
}

impl Question {
    fn request(&self) -> String {
        let form = match self.form {
            Form::Literal => "literal",
            Form::Constructor => "constructor",
        };
        let dialect = match self.dialect {
            "strict" => r#","duplicateNames":false,"bufferBoundaries":false"#,
            "standard" => r#","standardStrings":true"#,
            _ => "",
        };
        let flags = self
            .flags
            .as_ref()
            .map_or(String::new(), |flags| format!(r#","flags":{}"#, quoted(flags)));
        let want = r#"["spelling","groups","tree"]"#;
        format!(
            r#"{{"form":"{form}","pattern":{}{flags}{dialect},"offset":1000,"flagsOffset":2000,"want":{want}}}"#,
            quoted(&self.pattern)
        )
    }

    /// The reply that the program is to write.
    fn reply(&self) -> String {
        let flags = self.flags.as_deref();
        let bytes = self.options.parse(&self.pattern, flags);
        let units = self.options.places(Places::Utf16).parse(&self.pattern, flags);
        match (bytes, units) {
            (Ok(bytes), Ok(units)) => read(&bytes, &units),
            (Err(Error::Refused(bytes)), Err(Error::Refused(units))) => refused(&bytes, &units),
            (bytes, _) => format!("{bytes:?}"),
        }
    }
}

fn quoted(text: &str) -> String {
    let mut written = String::from("\"");
    for character in text.chars() {
        match character {
            '"' | '\\' => written.extend(['\\', character]),
            '\u{8}' => written.push_str("\\b"),
            '\u{C}' => written.push_str("\\f"),
            '\n' => written.push_str("\\n"),
            '\r' => written.push_str("\\r"),
            '\t' => written.push_str("\\t"),
            '\0'..='\u{1F}' => write!(written, "\\u{:04x}", u32::from(character)).unwrap(),
            _ => written.push(character),
        }
    }
    written + "\""
}

fn nullable(text: Option<&str>) -> String {
    text.map_or("null".to_owned(), quoted)
}

fn place(bytes: Span, units: Span) -> String {
    format!(
        r#""start":{},"end":{},"start16":{},"end16":{}"#,
        bytes.start, bytes.end, units.start, units.end
    )
}

fn list(items: impl Iterator<Item = String>) -> String {
    format!("[{}]", items.collect::<Vec<_>>().join(","))
}

fn read(bytes: &Parsed, units: &Parsed) -> String {
    let mode = match bytes.mode() {
        Mode::Legacy => "legacy",
        Mode::Unicode => "unicode",
        Mode::Sets => "sets",
    };
    let groups = bytes.groups().zip(units.groups()).map(|(group, same)| {
        let place = place(group.node.span(), same.node.span());
        format!(r#"{{"number":{},"name":{},{place}}}"#, group.number, nullable(group.name))
    });
    let mut names: Vec<&str> = Vec::new();
    for name in bytes.groups().filter_map(|group| group.name) {
        if !names.contains(&name) {
            names.push(name);
        }
    }
    format!(
        r#"{{"id":null,"status":"ok","mode":"{mode}","spelling":{},"groups":{},"names":{},"tree":{}}}"#,
        quoted(bytes.canonical()),
        list(groups),
        list(names.into_iter().map(quoted)),
        tree(bytes.root(), units.root())
    )
}

fn refused(bytes: &Refusal, units: &Refusal) -> String {
    let values = match bytes.values() {
        Values::Flag(flag) => format!(r#""flag":{}"#, quoted(flag)),
        Values::Max(max) => format!(r#""max":{max}"#),
        Values::Names(names) => format!(r#""names":{}"#, list(names.into_iter().map(quoted))),
        Values::Name(name) => format!(r#""name":{}"#, quoted(name)),
        _ => String::new(),
    };
    let field = match bytes.field() {
        Field::Pattern => "pattern",
        Field::Flags => "flags",
    };
    let spans =
        bytes.spans().zip(units.spans()).map(|(span, same)| format!("{{{}}}", place(span, same)));
    format!(
        r#"{{"id":null,"status":"refused","name":{},"kind":{},"values":{{{values}}},"message":{},"field":"{field}","spans":{},"help":{}}}"#,
        quoted(bytes.name()),
        nullable(bytes.kind()),
        quoted(bytes.message()),
        list(spans),
        nullable(bytes.help())
    )
}

/// The name of a variant, which begins with a small letter in JSON.
fn word(kind: impl std::fmt::Debug) -> String {
    let name = format!("{kind:?}");
    quoted(&(name[..1].to_lowercase() + &name[1..]))
}

/// A node as JSON. `units` is the same node with places in UTF-16.
fn tree(node: Node<'_>, units: Node<'_>) -> String {
    let kind = format!("{:?}", node.kind());
    let name = kind.split(' ').next().unwrap();
    let place = place(node.span(), units.span());
    format!(r#"{{"type":"{name}",{place}{}{}}}"#, own(node, units), body(node, units))
}

/// The fields of a node that are no children of it.
fn own(node: Node<'_>, units: Node<'_>) -> String {
    use NodeKind as K;
    match node.kind() {
        K::LookAroundAssertion { kind } => format!(r#","kind":{}"#, word(kind)),
        K::Quantifier { min, max, greedy } => {
            let max = max.map_or("null".to_owned(), |max| max.to_string());
            format!(r#","min":{min},"max":{max},"greedy":{greedy}"#)
        }
        K::CapturingGroup { name, .. } => format!(r#","name":{}"#, nullable(name)),
        K::IgnoreGroup { .. } => format!(r#","modifiers":{}"#, modifiers(node, units)),
        K::BoundaryAssertion { kind } => format!(r#","kind":{}"#, word(kind)),
        K::Character { kind, value } => format!(r#","kind":{},"value":{value}"#, word(kind)),
        K::CharacterClassEscape { kind } => format!(r#","kind":{}"#, word(kind)),
        K::UnicodePropertyEscape { negative, strings, name, value } => {
            let (name, value) = (quoted(name), nullable(value));
            format!(r#","negative":{negative},"strings":{strings},"name":{name},"value":{value}"#)
        }
        K::CharacterClass { negative, strings, kind } => {
            format!(r#","negative":{negative},"strings":{strings},"kind":{}"#, word(kind))
        }
        K::ClassStringDisjunction { strings } | K::ClassString { strings } => {
            format!(r#","strings":{strings}"#)
        }
        K::IndexedReference { index } => format!(r#","index":{index}"#),
        K::NamedReference { name } => format!(r#","name":{}"#, quoted(name)),
        K::Pattern | K::Disjunction | K::Alternative | K::Dot | K::CharacterClassRange => {
            String::new()
        }
    }
}

/// The fields of a node that are its children.
fn body(node: Node<'_>, units: Node<'_>) -> String {
    use NodeKind as K;
    let mut children = node.children().zip(units.children()).map(|(child, same)| tree(child, same));
    match node.kind() {
        K::Pattern
        | K::LookAroundAssertion { .. }
        | K::Quantifier { .. }
        | K::CapturingGroup { .. }
        | K::IgnoreGroup { .. } => format!(r#","body":{}"#, children.next().unwrap()),
        K::Disjunction
        | K::Alternative
        | K::CharacterClass { .. }
        | K::ClassStringDisjunction { .. }
        | K::ClassString { .. } => format!(r#","body":{}"#, list(children)),
        K::CharacterClassRange => {
            format!(r#","min":{},"max":{}"#, children.next().unwrap(), children.next().unwrap())
        }
        _ => String::new(),
    }
}

/// The modifiers of a group.
fn modifiers(node: Node<'_>, units: Node<'_>) -> String {
    match (node.kind(), units.kind()) {
        (
            NodeKind::IgnoreGroup { modifiers: Some(own) },
            NodeKind::IgnoreGroup { modifiers: Some(same) },
        ) => {
            let place = place(own.span, same.span);
            format!(
                r#"{{"type":"Modifiers",{place},"enabling":"{}","disabling":"{}"}}"#,
                own.enabling, own.disabling
            )
        }
        _ => "null".to_owned(),
    }
}

/// The program's replies, one to each line.
fn replies(program: &str, requests: String) -> String {
    let mut command = Command::new(program);
    let mut child = command
        .arg("json")
        .stdin(Stdio::piped())
        .stdout(Stdio::piped())
        .spawn()
        .expect("the program runs");
    let mut input = child.stdin.take().unwrap();
    let writer = thread::spawn(move || input.write_all(requests.as_bytes()));
    let output = child.wait_with_output().unwrap();
    writer.join().unwrap().unwrap();
    String::from_utf8(output.stdout).unwrap()
}

#[test]
fn all_is_what_the_program_says() {
    let program = env::var("TITANIUMBAT_PROGRAM").unwrap_or_default();
    if program.is_empty() {
        return println!("passed over: TITANIUMBAT_PROGRAM names no program");
    }
    let questions = questions();
    let requests: String = questions.iter().map(|question| question.request() + "\n").collect();
    let replies = replies(&program, requests);
    assert_eq!(replies.lines().count(), questions.len());
    let mut wrong = 0;
    for (question, reply) in questions.iter().zip(replies.lines()) {
        let own = question.reply();
        if own != reply {
            wrong += 1;
            println!("{}\n  program {reply}\n  crate   {own}", question.request());
        }
    }
    println!("{} replies, {wrong} wrong", questions.len());
    assert_eq!(wrong, 0);
}
