use crate::ffi::Refused;
use crate::Span;
use std::error;
use std::fmt;

/// Why a pattern was not read.
#[derive(Clone, Debug, PartialEq, Eq)]
#[non_exhaustive]
pub enum Error {
    /// The pattern or its flags are not valid.
    Refused(Refusal),
    /// There was not enough memory.
    OutOfMemory,
    /// The places would not fit 32 bits: an offset and the size of its text in bytes must make less than 2^32. A literal's pattern counts 4 bytes at least, an
    /// argument of `RegExp` 6.
    OffsetTooLarge,
}

impl Error {
    /// The refusal, where it is one.
    pub fn refusal(&self) -> Option<&Refusal> {
        match self {
            Error::Refused(refusal) => Some(refusal),
            _ => None,
        }
    }
}

/// The message of a refusal, or what else is wrong.
impl fmt::Display for Error {
    fn fmt(&self, f: &mut fmt::Formatter<'_>) -> fmt::Result {
        match self {
            Error::Refused(refusal) => refusal.fmt(f),
            Error::OutOfMemory => f.write_str("Out of memory"),
            Error::OffsetTooLarge => f.write_str("An offset is too large for its text"),
        }
    }
}

impl error::Error for Error {}

/// What is wrong with a pattern or its flags, and where. Of several things that are wrong one is told, which is the first.
///
/// The names, kinds and values are those of the program's replies in JSON.
///
/// ```
/// use titaniumbat::{parse, Error, Field};
///
/// let Err(Error::Refused(refusal)) = parse("é(?P<year>b)", "u") else { unreachable!() };
/// assert_eq!(refusal.name(), "unknown_modifiers");
/// assert_eq!(refusal.message(), "Invalid regular expression: Unknown modifiers");
/// assert_eq!(refusal.help(), Some("named groups are written (?<a>b)"));
/// assert_eq!(refusal.field(), Field::Pattern);
/// assert_eq!(refusal.span().to_string(), "4..4");
/// ```
#[derive(Clone, PartialEq, Eq)]
pub struct Refusal(Box<Refused>);

/// The text in which the spans of a refusal lie.
#[derive(Clone, Copy, Debug, PartialEq, Eq, Hash)]
pub enum Field {
    /// The pattern.
    Pattern,
    /// The flags.
    Flags,
}

/// What a refusal holds besides its spans.
#[derive(Clone, Debug, PartialEq, Eq, Hash)]
#[non_exhaustive]
pub enum Values<'a> {
    /// Nothing.
    None,
    /// The flag, of `unknown_flag` and `duplicated_flags`; where it is no character, as in the message, `\u{D800}`.
    Flag(&'a str),
    /// How many groups there are, of `invalid_indexed_reference`.
    Max(u32),
    /// The names of the groups, each once and in the order in which they first come, of `invalid_named_reference`.
    Names(Vec<&'a str>),
    /// The name of the property, of `invalid_unicode_property_name_negative_strings` and `invalid_unicode_property_of_strings`.
    Name(&'a str),
}

impl Refusal {
    pub(crate) fn new(refused: Refused) -> Refusal {
        Refusal(Box::new(refused))
    }

    /// What it is called, as `lone_quantifier`.
    pub fn name(&self) -> &str {
        &self.0.name
    }

    /// Which kind of its name it is, where there are several, as `group_name` of `unterminated_pattern`.
    pub fn kind(&self) -> Option<&str> {
        some(&self.0.kind)
    }

    /// The message for people, in one line. A flag that it shows may be any character, a line break too.
    pub fn message(&self) -> &str {
        &self.0.message
    }

    /// What to write instead, in one line, where that can be said. It speaks of the text between slashes: in a string each backslash is written twice.
    pub fn help(&self) -> Option<&str> {
        some(&self.0.help)
    }

    /// What else it holds.
    ///
    /// ```
    /// use titaniumbat::{check, Values};
    ///
    /// let error = check(r"(?<year>a)(?<month>b)\k<day>", "").unwrap_err();
    /// assert_eq!(error.refusal().unwrap().values(), Values::Names(vec!["year", "month"]));
    /// ```
    pub fn values(&self) -> Values<'_> {
        let mut texts = self.0.values.iter().map(|place| &self.0.texts[place.range()]);
        match self.name() {
            "unknown_flag" | "duplicated_flags" => texts.next().map_or(Values::None, Values::Flag),
            "invalid_indexed_reference" => Values::Max(self.0.max),
            "invalid_named_reference" => Values::Names(texts.collect()),
            "invalid_unicode_property_name_negative_strings"
            | "invalid_unicode_property_of_strings" => {
                texts.next().map_or(Values::None, Values::Name)
            }
            _ => Values::None,
        }
    }

    /// In which text the spans lie.
    pub fn field(&self) -> Field {
        match self.0.field {
            0 => Field::Pattern,
            _ => Field::Flags,
        }
    }

    /// Its place, or the first of its two.
    pub fn span(&self) -> Span {
        self.0.first
    }

    /// The second place: of two groups with one name, that of the second name.
    pub fn second_span(&self) -> Option<Span> {
        (self.0.span_count > 1).then_some(self.0.second)
    }

    /// Both places, or the one that there is.
    pub fn spans(&self) -> impl DoubleEndedIterator<Item = Span> {
        std::iter::once(self.span()).chain(self.second_span())
    }
}

fn some(text: &str) -> Option<&str> {
    (!text.is_empty()).then_some(text)
}

/// The message.
impl fmt::Display for Refusal {
    fn fmt(&self, f: &mut fmt::Formatter<'_>) -> fmt::Result {
        f.write_str(self.message())
    }
}

impl fmt::Debug for Refusal {
    fn fmt(&self, f: &mut fmt::Formatter<'_>) -> fmt::Result {
        f.debug_struct("Refusal")
            .field("name", &self.name())
            .field("kind", &self.kind())
            .field("message", &self.message())
            .field("help", &self.help())
            .field("values", &self.values())
            .field("field", &self.field())
            .field("span", &self.span())
            .field("second_span", &self.second_span())
            .finish()
    }
}

impl error::Error for Refusal {}
