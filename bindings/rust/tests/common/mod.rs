//! What several tests read: literals, and tables of the repository, which a package does not have.
#![allow(dead_code)]

use std::env;
use std::fs;
use std::path::Path;
use titaniumbat::{Form, Options};

/// A text of the repository, or `None`, with a word to whoever looks, where this is a package alone.
pub fn text_of(path: &str) -> Option<String> {
    let path = Path::new(env!("CARGO_MANIFEST_DIR")).join("../..").join(path);
    let text = fs::read_to_string(&path).ok();
    if text.is_none() {
        eprintln!("passed over: {} is not there", path.display());
    }
    text
}

/// Patterns with their flags: lines of a form, TAB, flags, TAB, pattern, of which literals count. `TITANIUMBAT_LITERALS` can name another file.
pub fn literals() -> Vec<(String, String)> {
    let own = concat!(env!("CARGO_MANIFEST_DIR"), "/tests/literals.tsv").into();
    let given = env::var_os("TITANIUMBAT_LITERALS").filter(|path| !path.is_empty());
    let path = given.unwrap_or(own);
    let text = fs::read_to_string(path).expect("the file of literals is there");
    let fields = text.lines().map(|line| line.splitn(3, '\t').collect::<Vec<_>>());
    let literals = fields.filter(|line| line[0] == "L");
    literals.map(|line| (line[2].to_owned(), line[1].to_owned())).collect()
}

/// A row of the table of the program's replies.
#[derive(Debug)]
pub struct Row {
    pub form: Form,
    pub flags: Option<String>,
    /// The word for what is read: none, `strict` or `standard`.
    pub dialect: &'static str,
    pub options: Options,
    pub pattern: String,
    pub reply: String,
}

/// The rows whose reply is that of the default command, or of `strict` or `standard`.
pub fn rows() -> Vec<Row> {
    let Some(table) = text_of("crates/rx_replies/stdin") else {
        return Vec::new();
    };
    let mut rows = Vec::new();
    let (mut form, mut flags, mut words) = (Form::Literal, Some("u".to_owned()), String::new());
    for line in table.split_terminator('\n') {
        if line.starts_with("# ") {
            (form, flags, words) = (Form::Literal, Some("u".to_owned()), String::new());
        } else if let Some((pattern, reply)) = line.split_once('\t') {
            if let Some((dialect, options)) = dialect_of(&words) {
                let flags = flags.clone();
                rows.push(Row {
                    form,
                    flags,
                    dialect,
                    options: options.form(form),
                    pattern: plain(pattern),
                    reply: plain(reply),
                });
            }
        } else if let Some((key, value)) = line.split_once(':') {
            let value = value.trim();
            match key {
                "form" if value == "C" => form = Form::Constructor,
                "form" => form = Form::Literal,
                "flags" => flags = Some(plain(value)).filter(|it| !it.is_empty()),
                "words" => words = value.to_owned(),
                _ => {}
            }
        }
    }
    rows
}

/// What the words of the table ask for, where they ask for the usual reply.
fn dialect_of(words: &str) -> Option<(&'static str, Options)> {
    match words {
        "" => Some(("", Options::new())),
        "strict" => {
            Some(("strict", Options::new().duplicate_names(false).buffer_boundaries(false)))
        }
        "standard" => Some(("standard", Options::new().standard_strings(true))),
        _ => None,
    }
}

/// The text of a cell, in which `«41»` is the character with this number, and `«»` is nothing.
fn plain(cell: &str) -> String {
    let mut parts = cell.split('«');
    let mut text = parts.next().unwrap_or_default().to_owned();
    for part in parts {
        let (number, after) = part.split_once('»').expect("each sign is closed");
        text.extend(u32::from_str_radix(number, 16).ok().and_then(char::from_u32));
        text.push_str(after);
    }
    text
}
