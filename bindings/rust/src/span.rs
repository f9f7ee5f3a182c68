use std::fmt;
use std::ops::Range;

/// A place in a text: from `start` to before `end`.
///
/// It counts bytes of the text, or its UTF-16 code units where [`Places::Utf16`](crate::Places::Utf16) asks for them. The offset of the text is added to both.
///
/// ```
/// let source = "let year = /(?<year>\\d{4})/u;";
/// let options = titaniumbat::Options::new().pattern_offset(12);
/// let parsed = options.parse(r"(?<year>\d{4})", "u")?;
/// let group = parsed.groups().next().unwrap();
/// assert_eq!(&source[group.node.span().range()], r"(?<year>\d{4})");
/// # Ok::<(), titaniumbat::Error>(())
/// ```
#[derive(Clone, Copy, Debug, Default, PartialEq, Eq, PartialOrd, Ord, Hash)]
#[repr(C)]
pub struct Span {
    /// Where it begins.
    pub start: u32,
    /// The place after its last.
    pub end: u32,
}

impl Span {
    /// The span as a range, to cut a text with where places count bytes.
    #[inline]
    pub const fn range(self) -> Range<usize> {
        self.start as usize..self.end as usize
    }

    /// How many bytes or code units it covers.
    #[inline]
    pub const fn len(self) -> u32 {
        self.end - self.start
    }

    /// Whether it covers nothing.
    #[inline]
    pub const fn is_empty(self) -> bool {
        self.start == self.end
    }
}

impl From<Span> for Range<usize> {
    fn from(span: Span) -> Range<usize> {
        span.range()
    }
}

impl From<Span> for Range<u32> {
    fn from(span: Span) -> Range<u32> {
        span.start..span.end
    }
}

/// As in `4..10`.
impl fmt::Display for Span {
    fn fmt(&self, f: &mut fmt::Formatter<'_>) -> fmt::Result {
        write!(f, "{}..{}", self.start, self.end)
    }
}
