//! How long reading takes, in nanoseconds a pattern: over all literals of a file, the least of many rounds.
//!
//!     cargo bench -- [FILE [ROUNDS]]
//!
//! A line of the file is `L`, TAB, flags, TAB, pattern. Without FILE the literals of the tests are read, which are few.

use std::env;
use std::fs;
use std::hint::black_box;
use std::time::Instant;
use titaniumbat::{canonical, check, parse, Error, Node, NodeKind, Options, Parsed, Places};

struct Literal<'t> {
    pattern: &'t str,
    flags: &'t str,
}

fn literals(text: &str) -> Vec<Literal<'_>> {
    let fields = text.lines().map(|line| line.splitn(3, '\t').collect::<Vec<_>>());
    let literals = fields.filter(|line| line.len() == 3 && line[0] == "L");
    literals.map(|line| Literal { pattern: line[2], flags: line[1] }).collect()
}

/// The tree alone.
fn tree(literal: &Literal) -> Result<Parsed, Error> {
    Options::new().spelling(false).parse(literal.pattern, literal.flags)
}

/// Looks at each node, as a linter does.
fn walk(parsed: &Parsed) -> u64 {
    let weight = |node: Node| match node.kind() {
        NodeKind::Character { value, .. } => u64::from(value),
        NodeKind::CapturingGroup { name, .. } => name.map_or(1, |name| name.len() as u64),
        _ => u64::from(node.span().len()),
    };
    parsed.nodes().map(weight).sum()
}

/// What is measured, by its name.
type Measured = (&'static str, fn(&Literal));

const MEASURED: [Measured; 9] = [
    ("an empty call", |_| drop(black_box(Options::new().pattern_offset(u32::MAX).check("", None)))),
    ("validity", |it| drop(black_box(check(it.pattern, it.flags)))),
    ("spelling", |it| drop(black_box(canonical(it.pattern, it.flags)))),
    ("tree", |it| drop(black_box(tree(it)))),
    ("tree, walked", |it| drop(black_box(tree(it).map(|parsed| walk(&parsed))))),
    ("tree, with events", |it| {
        drop(black_box(tree(it).map(|parsed| parsed.root().walk().count())))
    }),
    ("tree, in UTF-16", |it| {
        let options = Options::new().spelling(false).places(Places::Utf16);
        drop(black_box(options.parse(it.pattern, it.flags)));
    }),
    ("tree and spelling", |it| drop(black_box(parse(it.pattern, it.flags)))),
    ("tree and spelling, walked", |it| {
        drop(black_box(parse(it.pattern, it.flags).map(|parsed| walk(&parsed))))
    }),
];

/// How many literals are read between two looks at the clock: few, so that most blocks are read without the processor being given to others.
const BLOCK: usize = 25;

/// The least time that each block takes in any round, all blocks together, in nanoseconds a literal. What is measured takes turns.
fn least(literals: &[Literal], rounds: usize) -> [f64; MEASURED.len()] {
    let mut least = vec![[u128::MAX; MEASURED.len()]; literals.len().div_ceil(BLOCK)];
    for _ in 0..rounds {
        for (block, least) in literals.chunks(BLOCK).zip(&mut least) {
            for (least, (_, measure)) in least.iter_mut().zip(MEASURED) {
                let begin = Instant::now();
                block.iter().for_each(measure);
                *least = begin.elapsed().as_nanos().min(*least);
            }
        }
    }
    let sum = |which: usize| least.iter().map(|block| block[which]).sum::<u128>();
    std::array::from_fn(|which| sum(which) as f64 / literals.len() as f64)
}

fn main() {
    // Cargo adds the word --bench.
    let mut words = env::args().skip(1).filter(|word| word != "--bench");
    let own = concat!(env!("CARGO_MANIFEST_DIR"), "/tests/literals.tsv");
    let path = words.next().unwrap_or_else(|| own.to_owned());
    let rounds = words.next().and_then(|word| word.parse().ok()).unwrap_or(100);
    let text = fs::read_to_string(&path).unwrap_or_else(|why| panic!("{path}: {why}"));
    let literals = literals(&text);
    let read: Vec<_> = literals.iter().filter_map(|it| tree(it).ok()).collect();
    let nodes: usize = read.iter().map(|parsed| parsed.nodes().len()).sum();
    let bytes: usize = literals.iter().map(|it| it.pattern.len()).sum();
    println!("{} literals of {bytes} bytes, {} of them read, with {nodes} nodes; the least of {rounds} rounds, ns a literal", literals.len(), read.len());
    let least = least(&literals, rounds);
    let validity = least[1];
    for (spent, (name, _)) in least.iter().zip(MEASURED) {
        println!("{name:26}{spent:9.0}{:8.2}", spent / validity);
    }
}
