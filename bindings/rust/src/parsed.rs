use crate::ffi::{Record, Tree};
use crate::{Node, NodeKind, Nodes, Options, Places, Span};
use std::fmt;
use std::iter::FusedIterator;
use std::slice;

/// Which flags a pattern is read with.
#[derive(Clone, Copy, Debug, PartialEq, Eq, Hash)]
pub enum Mode {
    /// Neither `u` nor `v`.
    Legacy,
    /// `u`
    Unicode,
    /// `v`
    Sets,
}

/// A pattern that was read: its tree, groups and canonical spelling. It owns them, and borrows nothing.
///
/// ```
/// use titaniumbat::{parse, Mode, NodeKind};
///
/// let parsed = parse(r"(?<year>\d{4,4})-\x41", "u")?;
/// assert_eq!(parsed.mode(), Mode::Unicode);
/// assert_eq!(parsed.canonical(), r"(?<year>\d{4})-A");
/// assert_eq!(parsed.groups().next().unwrap().name, Some("year"));
/// let digits = parsed.nodes().find(|node| matches!(node.kind(), NodeKind::Quantifier { .. })).unwrap();
/// assert_eq!((digits.text(), digits.span().range()), (r"\d{4,4}", 8..15));
/// # Ok::<(), titaniumbat::Error>(())
/// ```
#[derive(Clone, PartialEq, Eq)]
pub struct Parsed {
    tree: Tree,
    source: Box<str>,
    offset: u32,
    /// What the places count. Of ASCII, where both are one, bytes.
    places: Places,
}

impl Parsed {
    pub(crate) fn new(tree: Tree, source: &str, options: &Options) -> Parsed {
        let (offset, mut places) = options.origin();
        if places == Places::Utf16 && source.is_ascii() {
            places = Places::Bytes;
        }
        let source = source.into();
        Parsed { tree, source, offset, places }
    }

    /// The mode, which the flags say.
    pub fn mode(&self) -> Mode {
        match self.tree.mode {
            0 => Mode::Legacy,
            1 => Mode::Unicode,
            _ => Mode::Sets,
        }
    }

    /// The canonical spelling, as a literal without slashes: equal for two patterns where their trees are equal but for places and for how characters are escaped.
    ///
    /// It is never empty, but where [`Options::spelling`] says that it is not wanted.
    pub fn canonical(&self) -> &str {
        &self.tree.spelling
    }

    /// The text of the pattern as it was read: what was given, or for an empty pattern `(?:)`, with quotes as an argument of `RegExp`.
    pub fn source(&self) -> &str {
        &self.source
    }

    /// The node of the whole pattern, in which all others stand.
    pub fn root(&self) -> Node<'_> {
        Node::new(self, 0)
    }

    /// All nodes in the order of the text, each before those that stand in it; the first is the root.
    #[inline]
    pub fn nodes(&self) -> Nodes<'_> {
        Nodes::all(self)
    }

    /// The capturing groups, in the order of their numbers.
    ///
    /// ```
    /// let parsed = titaniumbat::parse("((?<a>x))", "")?;
    /// let groups: Vec<_> = parsed.groups().map(|it| (it.number, it.name, it.node.text())).collect();
    /// assert_eq!(groups, [(1, None, "((?<a>x))"), (2, Some("a"), "(?<a>x)")]);
    /// # Ok::<(), titaniumbat::Error>(())
    /// ```
    pub fn groups(&self) -> Groups<'_> {
        Groups { parsed: self, left: self.tree.groups.iter() }
    }

    /// The group with a number, from 1 on: the one that an indexed reference with this index means.
    pub fn group(&self, number: u32) -> Option<Group<'_>> {
        let before = usize::try_from(number).ok()?.checked_sub(1)?;
        self.groups().nth(before)
    }

    #[inline]
    pub(crate) fn records(&self) -> &[Record] {
        &self.tree.nodes
    }

    /// A name or a value of the tree.
    #[inline]
    pub(crate) fn name_at(&self, place: Span) -> &str {
        &self.tree.texts[place.range()]
    }

    /// The text at a span of a node. What lies past the end is empty.
    pub(crate) fn text_at(&self, span: Span) -> &str {
        let start = self.byte_at(span.start);
        let end = self.byte_at(span.end);
        self.source.get(start..end).unwrap_or_default()
    }

    /// The byte of the text at a place.
    fn byte_at(&self, place: u32) -> usize {
        let place = (place - self.offset) as usize;
        match self.places {
            Places::Bytes => place,
            Places::Utf16 => byte_of_unit(&self.source, place),
        }
    }
}

/// The byte at which a code unit of a text begins. Past the end each counts as one byte.
fn byte_of_unit(text: &str, place: usize) -> usize {
    let mut units = 0;
    for (byte, character) in text.char_indices() {
        if units >= place {
            return byte;
        }
        units += character.len_utf16();
    }
    text.len() + (place - units)
}

impl fmt::Debug for Parsed {
    fn fmt(&self, f: &mut fmt::Formatter<'_>) -> fmt::Result {
        f.debug_struct("Parsed")
            .field("source", &self.source)
            .field("mode", &self.mode())
            .field("canonical", &self.canonical())
            .field("nodes", &self.nodes())
            .finish()
    }
}

/// A capturing group.
#[derive(Clone, Copy, Debug, PartialEq, Eq, Hash)]
pub struct Group<'a> {
    /// Which group from the left it is, from 1 on.
    pub number: u32,
    /// Its name, with escapes decoded.
    pub name: Option<&'a str>,
    /// Its node. The place of that has the parentheses in it.
    pub node: Node<'a>,
}

/// Capturing groups, in the order of their numbers: what [`Parsed::groups`] gives.
#[derive(Clone)]
#[must_use]
pub struct Groups<'a> {
    parsed: &'a Parsed,
    left: slice::Iter<'a, u32>,
}

impl<'a> Groups<'a> {
    fn group(&self, index: u32) -> Group<'a> {
        let node = Node::new(self.parsed, index as usize);
        match node.kind() {
            NodeKind::CapturingGroup { name, number } => Group { number, name, node },
            other => unreachable!("{other:?} is no group"),
        }
    }
}

impl<'a> Iterator for Groups<'a> {
    type Item = Group<'a>;

    fn next(&mut self) -> Option<Group<'a>> {
        self.left.next().map(|index| self.group(*index))
    }

    fn nth(&mut self, n: usize) -> Option<Group<'a>> {
        self.left.nth(n).map(|index| self.group(*index))
    }

    fn size_hint(&self) -> (usize, Option<usize>) {
        self.left.size_hint()
    }
}

impl DoubleEndedIterator for Groups<'_> {
    fn next_back(&mut self) -> Option<Self::Item> {
        self.left.next_back().map(|index| self.group(*index))
    }
}

impl ExactSizeIterator for Groups<'_> {}
impl FusedIterator for Groups<'_> {}

impl fmt::Debug for Groups<'_> {
    fn fmt(&self, f: &mut fmt::Formatter<'_>) -> fmt::Result {
        f.debug_list().entries(self.clone()).finish()
    }
}
