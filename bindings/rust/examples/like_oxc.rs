//! Stands in for a caller of the crate `oxc_regular_expression`: it finds control characters in the regular expressions of a source, and tells their places there. The
//! comments are the calls of that crate.

use titaniumbat::{Error, Event, Form, Node, NodeKind, Options, Parsed, Span};

const SOURCE: &str = r#"let a = /[\x00-\x1f]é\t|(?=\cA)/u; let b = new RegExp("\\x07+é\u0008", 'g'); let c = /x{2,1}/, d = /y/gg;"#;

/// A regular expression as a parser of JavaScript finds it.
struct Found {
    form: Form,
    pattern: &'static str,
    flags: Option<&'static str>,
}

const FOUND: [Found; 4] = [
    Found { form: Form::Literal, pattern: r"[\x00-\x1f]é\t|(?=\cA)", flags: Some("u") },
    Found { form: Form::Constructor, pattern: r#""\\x07+é\u0008""#, flags: Some("'g'") },
    Found { form: Form::Literal, pattern: "x{2,1}", flags: None },
    Found { form: Form::Literal, pattern: "y", flags: Some("gg") },
];

fn place_of(text: &str) -> u32 {
    SOURCE.find(text).map_or(0, |at| at as u32)
}

fn read(found: &Found) -> Result<Parsed, Error> {
    let flags_offset = match found.flags {
        Some(flags) => place_of(flags),
        None => 0,
    };
    // Options { pattern_span_offset: place_of(found.pattern), flags_span_offset: flags_offset }
    let options = Options::new()
        .form(found.form)
        .pattern_offset(place_of(found.pattern))
        .flags_offset(flags_offset)
        .spelling(false);
    // LiteralParser::new(&allocator, found.pattern, found.flags, options).parse()
    // ConstructorParser::new(&allocator, found.pattern, found.flags, options).parse()
    options.parse(found.pattern, found.flags)
}

/// Gathers the control characters, and whether they stand in a look-around assertion.
#[derive(Default)]
struct Finder {
    depth: usize,
    found: Vec<(Span, u32, bool)>,
}

// impl<'a> Visit<'a> for Finder
impl Finder {
    // fn enter_node(&mut self, kind: RegExpAstKind<'a>)
    fn enter(&mut self, node: Node) {
        match node.kind() {
            // RegExpAstKind::LookAroundAssertion(_)
            NodeKind::LookAroundAssertion { .. } => self.depth += 1,
            // RegExpAstKind::Character(it) if it.value < 0x20
            NodeKind::Character { value, .. } if value < 0x20 => {
                self.found.push((node.span(), value, self.depth > 0));
            }
            _ => {}
        }
    }

    // fn leave_node(&mut self, kind: RegExpAstKind<'a>)
    fn leave(&mut self, node: Node) {
        if let NodeKind::LookAroundAssertion { .. } = node.kind() {
            self.depth -= 1;
        }
    }

    // visitor.visit_pattern(&pattern)
    fn visit(&mut self, parsed: &Parsed) {
        for event in parsed.root().walk() {
            match event {
                Event::Enter(node) => self.enter(node),
                Event::Leave(node) => self.leave(node),
            }
        }
    }
}

fn main() {
    for found in &FOUND {
        match read(found) {
            Ok(parsed) => {
                let mut finder = Finder::default();
                finder.visit(&parsed);
                for (span, value, looked_at) in finder.found {
                    let text = &SOURCE[span.range()];
                    let note = if looked_at { ", in a look-around assertion" } else { "" };
                    println!("{span}: {text} is the control character {value:#04x}{note}");
                }
            }
            // The labels of their OxcDiagnostic
            Err(Error::Refused(refusal)) => {
                let text = &SOURCE[refusal.span().range()];
                println!("{}: {text}: {refusal}", refusal.span());
            }
            Err(error) => println!("{error}"),
        }
    }
}
