//! Reads regular expressions of ECMAScript: whether one is valid, its tree with the place of each node, its groups and its canonical spelling; or why and where it is
//! refused.
//!
//! ```
//! use titaniumbat::{parse, LookAroundAssertionKind, NodeKind};
//!
//! let parsed = parse(r"(?<=\$)(?<cents>\d+)", "u")?;
//! let looks_back = |kind| matches!(kind, NodeKind::LookAroundAssertion { kind: LookAroundAssertionKind::Lookbehind });
//! let lookbehind = parsed.nodes().find(|node| looks_back(node.kind())).unwrap();
//! assert_eq!((lookbehind.span().range(), lookbehind.text()), (0..7, r"(?<=\$)"));
//! assert_eq!(parsed.groups().next().unwrap().name, Some("cents"));
//!
//! let error = parse("a(b", "").unwrap_err();
//! assert_eq!(error.to_string(), "Invalid regular expression: Unterminated capturing group");
//! assert_eq!(error.refusal().unwrap().span().range(), 1..3);
//! # Ok::<(), titaniumbat::Error>(())
//! ```
//!
//! The work is done by a static library that is written in Rattle, and of which each function is proved to meet its contract. This crate is a thin layer over its C
//! interface; it is tested, not proved. No call keeps anything, so any number of threads may call at once, and what was read may go from one to another. Deep patterns
//! need no deep stack.
//!
//! [`parse`], [`check`] and [`canonical`] read literals. [`Options`] has arguments of `RegExp`, offsets, places in UTF-16, and what of the language is read.
#![deny(missing_docs)]

mod error;
mod ffi;
mod kinds;
mod node;
mod options;
mod parsed;
mod span;

pub use error::{Error, Field, Refusal, Values};
pub use kinds::{
    BoundaryAssertionKind, CharacterClassContentsKind, CharacterClassEscapeKind, CharacterKind,
    LookAroundAssertionKind, Modifier, Modifiers, NodeKind,
};
pub use node::{Children, Event, Node, Nodes, Walk};
pub use options::{Form, Options, Places};
pub use parsed::{Group, Groups, Mode, Parsed};
pub use span::Span;

/// Reads a literal: the text between its slashes, and the letters after them.
///
/// ```
/// let parsed = titaniumbat::parse(r"\x41{1,}", "")?;
/// assert_eq!(parsed.canonical(), "A+");
/// # Ok::<(), titaniumbat::Error>(())
/// ```
///
/// # Errors
///
/// [`Error::Refused`] where the literal is not valid, and the others as [`Error`] says.
pub fn parse(pattern: &str, flags: &str) -> Result<Parsed, Error> {
    Options::new().parse(pattern, flags)
}

/// Says whether a literal is valid. Neither a tree nor a spelling is made.
///
/// ```
/// use titaniumbat::check;
///
/// assert!(check("[a-z&&[aeiou]]", "").is_ok());
/// assert!(check("[a-z&&[aeiou]]", "v").is_err());
/// ```
///
/// # Errors
///
/// As of [`parse`].
pub fn check(pattern: &str, flags: &str) -> Result<(), Error> {
    Options::new().check(pattern, flags)
}

/// The canonical spelling of a literal, without slashes. No tree is made.
///
/// ```
/// assert_eq!(titaniumbat::canonical(r"[\x2Da-c\b]\d{2,2}", "u")?, r"[\-a-c\x08]\d{2}");
/// # Ok::<(), titaniumbat::Error>(())
/// ```
///
/// # Errors
///
/// As of [`parse`].
pub fn canonical(pattern: &str, flags: &str) -> Result<String, Error> {
    Options::new().canonical(pattern, flags)
}

#[cfg(doctest)]
#[doc = include_str!("../README.md")]
struct Readme;
