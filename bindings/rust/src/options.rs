use crate::ffi::{self, Answer};
use crate::{Error, Parsed, Refusal};

/// In which form a pattern stands in the source.
#[derive(Clone, Copy, Debug, Default, PartialEq, Eq, Hash)]
pub enum Form {
    /// The pattern is the text between a literal's slashes, the flags are the letters after them.
    #[default]
    Literal,
    /// They are the arguments of `RegExp` as they stand in the source, with their quotes.
    Constructor,
}

/// What places count.
#[derive(Clone, Copy, Debug, Default, PartialEq, Eq, Hash)]
pub enum Places {
    /// Bytes of UTF-8, as strings of Rust do.
    #[default]
    Bytes,
    /// Code units of UTF-16, as strings of JavaScript do.
    Utf16,
}

/// How patterns are read. [`parse`](crate::parse), [`check`](crate::check) and [`canonical`](crate::canonical) read by [`Options::new`].
///
/// Each call takes the flags as `&str`, or as an `Option` of it: `None` says that there is no text of flags. To a literal this is the same as an empty one; an argument
/// of `RegExp` would have its quotes.
///
/// ```
/// use titaniumbat::{Form, Options};
///
/// let options = Options::new().form(Form::Constructor).pattern_offset(100);
/// let parsed = options.parse(r#""\\d+""#, None)?;
/// assert_eq!(parsed.canonical(), r"\d+");
/// assert_eq!(parsed.root().span().to_string(), "101..105");
/// # Ok::<(), titaniumbat::Error>(())
/// ```
#[derive(Clone, Copy, Debug, PartialEq, Eq, Hash)]
#[must_use]
pub struct Options {
    form: Form,
    pattern_offset: u32,
    flags_offset: u32,
    duplicate_names: bool,
    buffer_boundaries: bool,
    standard_strings: bool,
    places: Places,
    spelling: bool,
}

/// What is wanted of a pattern.
#[derive(Clone, Copy)]
struct Wanted {
    nodes: bool,
    spelling: bool,
}

impl Options {
    /// Literals without offsets; duplicate names and buffer boundaries are read; places count bytes, and the spelling is wanted.
    pub const fn new() -> Options {
        Options {
            form: Form::Literal,
            pattern_offset: 0,
            flags_offset: 0,
            duplicate_names: true,
            buffer_boundaries: true,
            standard_strings: false,
            places: Places::Bytes,
            spelling: true,
        }
    }

    /// In which form the pattern and the flags are given.
    pub const fn form(self, form: Form) -> Options {
        Options { form, ..self }
    }

    /// What is added to each place in the pattern: where the pattern begins in the source, in bytes or in code units as the places count.
    pub const fn pattern_offset(self, pattern_offset: u32) -> Options {
        Options { pattern_offset, ..self }
    }

    /// The same for places in the flags.
    pub const fn flags_offset(self, flags_offset: u32) -> Options {
        Options { flags_offset, ..self }
    }

    /// Whether two groups may have one name where they never both take part. By default they may.
    pub const fn duplicate_names(self, duplicate_names: bool) -> Options {
        Options { duplicate_names, ..self }
    }

    /// Whether `\A`, `\z` and `\Z` are boundaries with `u` or `v`, which is a proposal. By default they are.
    pub const fn buffer_boundaries(self, buffer_boundaries: bool) -> Options {
        Options { buffer_boundaries, ..self }
    }

    /// Whether arguments of `RegExp` are decoded as ECMA-262 has it. By default they are decoded as the crate `oxc_regular_expression` does.
    pub const fn standard_strings(self, standard_strings: bool) -> Options {
        Options { standard_strings, ..self }
    }

    /// What places count. By default it is bytes.
    pub const fn places(self, places: Places) -> Options {
        Options { places, ..self }
    }

    /// Whether [`Options::parse`] also makes the canonical spelling. By default it does; a caller that wants the tree alone saves its time.
    pub const fn spelling(self, spelling: bool) -> Options {
        Options { spelling, ..self }
    }

    /// Reads a pattern with its flags.
    ///
    /// # Errors
    ///
    /// [`Error::Refused`] where one of the two is not valid, and the others as [`Error`] says.
    pub fn parse<'f>(
        &self,
        pattern: &str,
        flags: impl Into<Option<&'f str>>,
    ) -> Result<Parsed, Error> {
        let wanted = Wanted { nodes: true, spelling: self.spelling };
        match self.read(pattern, flags.into(), wanted) {
            Answer::Read(tree) => Ok(Parsed::new(tree, self.text_read(pattern), self)),
            other => Err(error(other)),
        }
    }

    /// Says whether a pattern and its flags are valid. Nothing is made but the answer.
    ///
    /// ```
    /// let without_repeated_names = titaniumbat::Options::new().duplicate_names(false);
    /// assert!(without_repeated_names.check("(?<a>x)|(?<a>y)", "").is_err());
    /// assert!(titaniumbat::check("(?<a>x)|(?<a>y)", "").is_ok());
    /// ```
    ///
    /// # Errors
    ///
    /// As of [`Options::parse`].
    pub fn check<'f>(&self, pattern: &str, flags: impl Into<Option<&'f str>>) -> Result<(), Error> {
        let wanted = Wanted { nodes: false, spelling: false };
        match self.read(pattern, flags.into(), wanted) {
            Answer::Read(_) => Ok(()),
            other => Err(error(other)),
        }
    }

    /// The canonical spelling of a pattern, as [`Parsed::canonical`] has it. No tree is made.
    ///
    /// # Errors
    ///
    /// As of [`Options::parse`].
    pub fn canonical<'f>(
        &self,
        pattern: &str,
        flags: impl Into<Option<&'f str>>,
    ) -> Result<String, Error> {
        let wanted = Wanted { nodes: false, spelling: true };
        match self.read(pattern, flags.into(), wanted) {
            Answer::Read(tree) => Ok(str::to_owned(&tree.spelling)),
            other => Err(error(other)),
        }
    }

    /// What is added to each place in the pattern, and what the places count.
    pub(crate) const fn origin(&self) -> (u32, Places) {
        (self.pattern_offset, self.places)
    }

    /// The text that is read: another stands in for an empty one.
    fn text_read<'p>(&self, pattern: &'p str) -> &'p str {
        match (self.form, pattern) {
            (Form::Literal, "") => "(?:)",
            (Form::Constructor, "\"\"" | "''" | "``") => "\"(?:)\"",
            _ => pattern,
        }
    }

    fn read(&self, pattern: &str, flags: Option<&str>, wanted: Wanted) -> Answer {
        let options = ffi::Options {
            form: match self.form {
                Form::Literal => 0,
                Form::Constructor => 1,
            },
            pattern_offset: self.pattern_offset,
            flags_offset: self.flags_offset,
            has_flags: flags.is_some(),
            duplicate_names: self.duplicate_names,
            buffer_boundaries: self.buffer_boundaries,
            standard_strings: self.standard_strings,
            utf16: self.places == Places::Utf16,
            nodes: wanted.nodes,
            spelling: wanted.spelling,
            spare: false,
        };
        ffi::read(pattern, flags.unwrap_or_default(), &options)
    }
}

impl Default for Options {
    fn default() -> Options {
        Options::new()
    }
}

/// Why a pattern was not read.
fn error(answer: Answer) -> Error {
    match answer {
        Answer::Refused(refused) => Error::Refused(Refusal::new(refused)),
        Answer::OutOfMemory => Error::OutOfMemory,
        Answer::BadArgument | Answer::Read(_) => Error::OffsetTooLarge,
    }
}
