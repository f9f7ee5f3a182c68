use crate::{canonical, check, parse, Error, Options, Places};
use std::cell::Cell;

thread_local! {
    /// How many blocks there are.
    static BLOCKS: Cell<i64> = const { Cell::new(0) };

    /// How many more times memory may be taken.
    static LEFT: Cell<u32> = const { Cell::new(u32::MAX) };
}

pub fn may_take() -> bool {
    let left = LEFT.get();
    LEFT.set(left.saturating_sub(1));
    left > 0
}

pub fn count(change: i64) {
    BLOCKS.set(BLOCKS.get() + change);
}

/// Runs with so many allocations, and gives what it gave, and whether more were asked for.
fn limited<T>(most: u32, run: impl FnOnce() -> T) -> (T, bool) {
    LEFT.set(most);
    let given = run();
    let is_short = LEFT.replace(u32::MAX) == 0;
    (given, is_short)
}

const PATTERNS: [(&str, &str); 8] = [
    (r"(?<year>\d{4})-(?<month>\d\d)|[^a-z\w]+?\k<year>(?i:x)(?<=y)", "u"),
    (r"[\p{L}--[a-z\q{ab|c}]]\p{Script=Greek}\p{RGI_Emoji}", "v"),
    ("😀é[😀]", ""),
    ("", ""),
    ("(?<a>x)(?<a>y)", ""),
    (r"(?<a>x)(?<b>y)\k<c>", ""),
    (r"\p{RGI_Emoji}", "u"),
    ("a", "gg"),
];

#[test]
fn no_block_is_left() {
    for (pattern, flags) in PATTERNS {
        let read = parse(pattern, flags);
        assert!(BLOCKS.get() > 0, "{pattern}");
        let copy = read.clone();
        assert_eq!(read, copy);
        drop(read);
        assert_eq!(format!("{copy:?}"), format!("{:?}", parse(pattern, flags)));
        drop(copy);
        assert_eq!(BLOCKS.get(), 0, "{pattern}");
    }
}

#[test]
fn each_allocation_is_refused_in_turn() {
    for (pattern, flags) in PATTERNS {
        let options = Options::new().places(Places::Utf16);
        let wanted = options.parse(pattern, flags);
        for most in 0.. {
            let (found, is_short) = limited(most, || options.parse(pattern, flags));
            match found {
                Err(Error::OutOfMemory) => assert!(is_short),
                found => assert_eq!(found, wanted),
            }
            if !is_short {
                break;
            }
        }
        drop(wanted);
        assert_eq!(BLOCKS.get(), 0, "{pattern}");
    }
}

#[test]
fn the_other_calls_say_it_too() {
    assert_eq!(limited(0, || check("(a)", "")).0, Err(Error::OutOfMemory));
    assert_eq!(limited(0, || canonical("(a)", "")).0, Err(Error::OutOfMemory));
    assert_eq!(Error::OutOfMemory.to_string(), "Out of memory");
    assert_eq!(BLOCKS.get(), 0);
}

#[test]
#[should_panic(expected = "the library librx_c.a and this crate do not belong together")]
fn a_library_of_another_version_is_not_used() {
    super::require_version(super::VERSION + 1);
}
