//! Threads: what was read goes from one to another, any number read at once, and deep patterns need no deep stack.

use std::thread;
use titaniumbat::{
    canonical, check, parse, Children, Error, Event, Group, Groups, Node, NodeKind, Nodes, Options,
    Parsed, Refusal, Walk,
};

const SMALL: usize = 256 * 1024;
const DEPTH: usize = 200_000;

#[test]
fn all_is_send_and_sync() {
    fn is_both<T: Send + Sync>() {}
    is_both::<Parsed>();
    is_both::<Error>();
    is_both::<Refusal>();
    is_both::<Options>();
    is_both::<Node<'_>>();
    is_both::<NodeKind<'_>>();
    is_both::<Nodes<'_>>();
    is_both::<Children<'_>>();
    is_both::<Walk<'_>>();
    is_both::<Group<'_>>();
    is_both::<Groups<'_>>();
}

#[test]
fn many_threads_read_at_once() {
    let shared = parse(r"(?<a>x)|[\p{L}\d]+", "u").unwrap();
    thread::scope(|scope| {
        for number in 0..8_u32 {
            let shared = &shared;
            scope.spawn(move || {
                for turn in 0..500 {
                    let pattern = format!("(?<g{number}>a{{{turn},}})");
                    let parsed = parse(&pattern, "").unwrap();
                    assert_eq!(
                        parsed.groups().next().unwrap().name,
                        Some(format!("g{number}").as_str())
                    );
                    assert!(parse(&pattern, "gg").is_err());
                    assert_eq!(shared.nodes().len(), shared.root().descendants().len() + 1);
                }
            });
        }
    });
    let elsewhere = thread::spawn(move || (shared.canonical().to_owned(), shared)).join().unwrap();
    assert_eq!(elsewhere.0, elsewhere.1.canonical());
}

/// Runs in a thread with a small stack.
fn in_a_small_stack(run: impl FnOnce() + Send + 'static) {
    thread::Builder::new().stack_size(SMALL).spawn(run).unwrap().join().unwrap();
}

#[test]
fn deep_groups() {
    in_a_small_stack(|| {
        let pattern = "(".repeat(DEPTH) + &")".repeat(DEPTH);
        let parsed = parse(&pattern, "").unwrap();
        assert_eq!(parsed.canonical(), pattern);
        assert_eq!((parsed.nodes().len(), parsed.groups().len()), (3 + 3 * DEPTH, DEPTH));
        let last = parsed.nodes().next_back().unwrap();
        assert_eq!((last.kind(), last.span().range()), (NodeKind::Alternative, DEPTH..DEPTH));
        let (mut depth, mut most) = (0_usize, 0);
        for event in parsed.root().walk() {
            match event {
                Event::Enter(_) => depth += 1,
                Event::Leave(_) => depth -= 1,
            }
            most = most.max(depth);
        }
        assert_eq!((depth, most), (0, 3 + 3 * DEPTH));
        assert!(parsed.clone() == parsed);
    });
}

#[test]
fn deep_classes_and_open_ones() {
    in_a_small_stack(|| {
        let pattern = "[".repeat(DEPTH) + &"]".repeat(DEPTH);
        assert_eq!(parse(&pattern, "v").unwrap().nodes().len(), 3 + DEPTH);
        assert_eq!(canonical(&pattern, "v").unwrap(), pattern);
        for open in ["(", "(?:", "(?<=", "("] {
            let refused = check(&open.repeat(DEPTH), "").unwrap_err();
            assert_eq!(refused.refusal().unwrap().name(), "unterminated_pattern");
        }
        assert!(check(&"[".repeat(DEPTH), "v").is_err());
    });
}
