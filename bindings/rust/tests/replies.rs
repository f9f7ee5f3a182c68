//! The tables of the repository: each row of the program's replies, and the refusals with their messages and helps as docs/REFUSALS.md has them.

mod common;

use common::{rows, text_of, Row};
use titaniumbat::{Error, Form, Mode, Options, Refusal};

/// The reply of the program to what this crate says.
fn reply(row: &Row) -> String {
    let flags = row.flags.as_deref();
    match row.options.parse(&row.pattern, flags) {
        Ok(parsed) => {
            let mode = match parsed.mode() {
                Mode::Legacy => "legacy",
                Mode::Unicode => "unicode",
                Mode::Sets => "sets",
            };
            format!("ok\t{mode}\t{}", parsed.canonical())
        }
        Err(Error::Refused(refusal)) => format!("err\t{}\t{}", refusal.name(), spans(&refusal)),
        Err(error) => error.to_string(),
    }
}

fn spans(refusal: &Refusal) -> String {
    let spans: Vec<_> = refusal.spans().map(|span| span.to_string()).collect();
    spans.join(",")
}

#[test]
fn each_row_of_the_replies() {
    let rows = rows();
    let usual = rows.iter().filter(|row| row.reply != "bad");
    let wrong: Vec<_> = usual.clone().filter(|row| reply(row) != row.reply).collect();
    assert!(
        wrong.is_empty(),
        "{} wrong, {:?}",
        wrong.len(),
        wrong.first().map(|row| (row, reply(row)))
    );
    println!("{} rows", usual.count());
}

#[test]
fn each_call_says_the_same() {
    for Row { options, pattern, flags, .. } in rows().iter().step_by(7) {
        let (pattern, flags) = (pattern.as_str(), flags.as_deref());
        let parsed = options.parse(pattern, flags);
        assert_eq!(options.check(pattern, flags), parsed.clone().map(|_| ()));
        assert_eq!(
            options.canonical(pattern, flags),
            parsed.clone().map(|it| it.canonical().to_owned())
        );
        let tree = options.spelling(false).parse(pattern, flags);
        assert_eq!(
            tree.as_ref().map(|it| (it.canonical(), it.nodes().len())),
            parsed.as_ref().map(|it| ("", it.nodes().len()))
        );
    }
}

/// The rows of a table of a document, each as the texts of its cells.
fn table(document: &str, head: &str) -> Vec<Vec<String>> {
    let after = document.split_once(&format!("| {head} |\n")).expect("the table is there").1;
    let lines = after.lines().skip(1).take_while(|line| line.starts_with('|'));
    lines.map(|line| cells(line).iter().map(|cell| cell.trim().to_owned()).collect()).collect()
}

/// What stands between the bars of a line. A bar with a backslash before it is none.
fn cells(line: &str) -> Vec<String> {
    let line = line.replace("\\|", "\0");
    let inside = line.trim_matches('|').split('|');
    inside.map(|cell| cell.replace('\0', "|")).collect()
}

/// The code of a cell.
fn code(cell: &str) -> &str {
    cell.strip_prefix('`').and_then(|it| it.strip_suffix('`')).expect("the cell is code")
}

/// What is refused at a form, flags and a pattern of a row.
fn refused(form: &str, flags: &str, pattern: &str) -> Refusal {
    let form = if form == "L" { Form::Literal } else { Form::Constructor };
    let flags = (flags != "none").then(|| code(flags));
    let error = Options::new().form(form).parse(code(pattern), flags).expect_err(pattern);
    error.refusal().expect("it is refused").clone()
}

#[test]
fn each_refusal_of_the_table() {
    let Some(document) = text_of("docs/REFUSALS.md") else {
        return;
    };
    let rows = table(
        &document,
        "name | message | reply | form | flags | pattern | spans | the span covers | section",
    );
    assert!(rows.len() > 40);
    for row in rows.iter().filter(|row| row[2] == "`err`") {
        let refusal = refused(&row[3], &row[4], &row[5]);
        let message = format!("Invalid regular expression: {}", row[1]);
        assert_eq!(
            (refusal.name(), refusal.message(), spans(&refusal)),
            (code(&row[0]), message.as_str(), row[6].clone())
        );
        assert_eq!(refusal.to_string(), message);
    }
}

#[test]
fn each_help_of_the_table() {
    let Some(document) = text_of("docs/REFUSALS.md") else {
        return;
    };
    let rows = table(&document, "name | what stands there | form | flags | pattern | help");
    assert!(rows.len() > 50);
    for row in rows {
        let refusal = refused(&row[2], &row[3], &row[4]);
        assert_eq!(
            (refusal.name(), refusal.help()),
            (code(&row[0]), Some(code(&row[5]))),
            "{row:?}"
        );
    }
}
