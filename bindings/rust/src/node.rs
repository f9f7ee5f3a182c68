use crate::ffi::Record;
use crate::kinds::{
    BoundaryAssertionKind, CharacterClassContentsKind, CharacterClassEscapeKind, CharacterKind,
    LookAroundAssertionKind, Modifier, Modifiers, NodeKind,
};
use crate::{Parsed, Span};
use std::fmt;
use std::hash::{Hash, Hasher};
use std::iter::FusedIterator;
use std::ops::Range;
use std::ptr;

/// A node of the tree of a [`Parsed`]. It is as small as a reference, and copied as freely.
///
/// Two nodes are equal where they are the same node of the same `Parsed`. To compare what they are, compare their [`kind`](Node::kind).
#[derive(Clone, Copy)]
pub struct Node<'a> {
    parsed: &'a Parsed,
    index: usize,
}

impl<'a> Node<'a> {
    #[inline]
    pub(crate) fn new(parsed: &'a Parsed, index: usize) -> Node<'a> {
        Node { parsed, index }
    }

    /// What it is.
    ///
    /// ```
    /// use titaniumbat::{parse, NodeKind};
    ///
    /// let parsed = parse("a{2,}?", "")?;
    /// let quantifier = parsed.nodes().find(|node| matches!(node.kind(), NodeKind::Quantifier { .. }));
    /// assert_eq!(quantifier.unwrap().kind(), NodeKind::Quantifier { min: 2, max: None, greedy: false });
    /// # Ok::<(), titaniumbat::Error>(())
    /// ```
    #[inline]
    pub fn kind(self) -> NodeKind<'a> {
        let record = self.record();
        let Record { negative, strings, number, .. } = *record;
        match record.node_type {
            1 => NodeKind::Pattern,
            2 => NodeKind::Disjunction,
            3 => NodeKind::Alternative,
            4 => NodeKind::LookAroundAssertion { kind: LookAroundAssertionKind::of(record.kind) },
            5 => self.quantifier(),
            6 => NodeKind::CapturingGroup { name: self.name(), number },
            7 => NodeKind::IgnoreGroup { modifiers: self.modifiers() },
            8 => NodeKind::BoundaryAssertion { kind: BoundaryAssertionKind::of(record.kind) },
            9 => NodeKind::Character { kind: CharacterKind::of(record.kind), value: number },
            10 => NodeKind::Dot,
            11 => {
                NodeKind::CharacterClassEscape { kind: CharacterClassEscapeKind::of(record.kind) }
            }
            12 => self.property_escape(),
            13 => NodeKind::CharacterClass {
                negative,
                strings,
                kind: CharacterClassContentsKind::of(record.kind),
            },
            14 => NodeKind::CharacterClassRange,
            15 => NodeKind::ClassStringDisjunction { strings },
            16 => NodeKind::ClassString { strings },
            17 => NodeKind::IndexedReference { index: number },
            18 => NodeKind::NamedReference { name: self.name().unwrap_or_default() },
            other => unreachable!("no node has the type {other}"),
        }
    }

    /// Its place in the text of the pattern.
    #[inline]
    pub fn span(self) -> Span {
        self.record().span
    }

    /// Its text, as it is written in the pattern. Of an empty pattern, which is read as `(?:)`, it is the text of that.
    ///
    /// Where places count code units, and the pattern is not ASCII, each call goes over the text before the node.
    ///
    /// ```
    /// use titaniumbat::{Options, Places};
    ///
    /// let parsed = Options::new().places(Places::Utf16).pattern_offset(7).parse("é😀(a)", "u")?;
    /// let group = parsed.groups().next().unwrap().node;
    /// assert_eq!((group.span().to_string().as_str(), group.text()), ("10..13", "(a)"));
    /// # Ok::<(), titaniumbat::Error>(())
    /// ```
    pub fn text(self) -> &'a str {
        self.parsed.text_at(self.span())
    }

    /// Its index among all nodes, by which [`Parsed::nodes`] has it; for a table beside the tree.
    #[inline]
    pub fn index(self) -> usize {
        self.index
    }

    /// The nodes that stand directly in it.
    ///
    /// ```
    /// let parsed = titaniumbat::parse("a|bc", "")?;
    /// let alternatives = parsed.root().children().next().unwrap().children();
    /// assert_eq!(alternatives.map(|node| node.text()).collect::<Vec<_>>(), ["a", "bc"]);
    /// # Ok::<(), titaniumbat::Error>(())
    /// ```
    #[inline]
    pub fn children(self) -> Children<'a> {
        Children { parsed: self.parsed, at: self.index + 1, left: self.record().children as usize }
    }

    /// All nodes that stand in it, at any depth, in the order of the text.
    #[inline]
    pub fn descendants(self) -> Nodes<'a> {
        Nodes { parsed: self.parsed, indices: self.index + 1..self.next() }
    }

    /// The node in which it stands directly. The pattern stands in none.
    ///
    /// It is looked for among the nodes before this one, from the last on: so it takes as many steps as nodes stand between the two. Where each parent is needed, keep it
    /// during a [`walk`](Node::walk).
    pub fn parent(self) -> Option<Node<'a>> {
        let before = Nodes { parsed: self.parsed, indices: 0..self.index };
        before.rev().find(|node| node.next() > self.index)
    }

    /// Enters and leaves this node and all that stand in it. Depth costs memory of the heap, not of the stack.
    ///
    /// ```
    /// use titaniumbat::{parse, Event, NodeKind};
    ///
    /// let parsed = parse("((a)b)(?:c)", "")?;
    /// let (mut depth, mut most) = (0, 0);
    /// for event in parsed.root().walk() {
    ///     match event {
    ///         Event::Enter(node) if matches!(node.kind(), NodeKind::CapturingGroup { .. }) => depth += 1,
    ///         Event::Leave(node) if matches!(node.kind(), NodeKind::CapturingGroup { .. }) => depth -= 1,
    ///         _ => {}
    ///     }
    ///     most = most.max(depth);
    /// }
    /// assert_eq!(most, 2);
    /// # Ok::<(), titaniumbat::Error>(())
    /// ```
    pub fn walk(self) -> Walk<'a> {
        Walk {
            left: Nodes { parsed: self.parsed, indices: self.index..self.next() },
            open: Vec::new(),
        }
    }

    #[inline]
    fn record(self) -> &'a Record {
        &self.parsed.records()[self.index]
    }

    /// The index of the node after it and all that stand in it.
    #[inline]
    fn next(self) -> usize {
        self.record().next as usize
    }

    #[inline]
    fn name(self) -> Option<&'a str> {
        let record = self.record();
        record.has_name.then(|| self.parsed.name_at(record.name))
    }

    fn quantifier(self) -> NodeKind<'a> {
        let Record { min, max, has_max, greedy, .. } = *self.record();
        NodeKind::Quantifier { min, max: has_max.then_some(max), greedy }
    }

    fn modifiers(self) -> Option<Modifiers> {
        let record = self.record();
        record.has_modifiers.then_some(Modifiers {
            span: record.modifiers,
            enabling: Modifier::of(record.enabling),
            disabling: Modifier::of(record.disabling),
        })
    }

    fn property_escape(self) -> NodeKind<'a> {
        let record = self.record();
        NodeKind::UnicodePropertyEscape {
            negative: record.negative,
            strings: record.strings,
            name: self.name().unwrap_or_default(),
            value: record.has_property_value.then(|| self.parsed.name_at(record.property_value)),
        }
    }
}

impl PartialEq for Node<'_> {
    fn eq(&self, other: &Node<'_>) -> bool {
        ptr::eq(self.parsed, other.parsed) && self.index == other.index
    }
}

impl Eq for Node<'_> {}

impl Hash for Node<'_> {
    fn hash<H: Hasher>(&self, state: &mut H) {
        ptr::hash(self.parsed, state);
        self.index.hash(state);
    }
}

impl fmt::Debug for Node<'_> {
    fn fmt(&self, f: &mut fmt::Formatter<'_>) -> fmt::Result {
        write!(f, "{:?} at {}", self.kind(), self.span())
    }
}

/// Nodes in the order of the text, each before those that stand in it: what [`Parsed::nodes`] and [`Node::descendants`] give.
#[derive(Clone)]
#[must_use]
pub struct Nodes<'a> {
    parsed: &'a Parsed,
    indices: Range<usize>,
}

impl<'a> Nodes<'a> {
    #[inline]
    pub(crate) fn all(parsed: &'a Parsed) -> Nodes<'a> {
        Nodes { parsed, indices: 0..parsed.records().len() }
    }
}

impl<'a> Iterator for Nodes<'a> {
    type Item = Node<'a>;

    #[inline]
    fn next(&mut self) -> Option<Node<'a>> {
        self.indices.next().map(|index| Node::new(self.parsed, index))
    }

    fn nth(&mut self, n: usize) -> Option<Node<'a>> {
        self.indices.nth(n).map(|index| Node::new(self.parsed, index))
    }

    fn size_hint(&self) -> (usize, Option<usize>) {
        self.indices.size_hint()
    }
}

impl DoubleEndedIterator for Nodes<'_> {
    #[inline]
    fn next_back(&mut self) -> Option<Self::Item> {
        self.indices.next_back().map(|index| Node::new(self.parsed, index))
    }
}

impl ExactSizeIterator for Nodes<'_> {}
impl FusedIterator for Nodes<'_> {}

impl fmt::Debug for Nodes<'_> {
    fn fmt(&self, f: &mut fmt::Formatter<'_>) -> fmt::Result {
        f.debug_list().entries(self.clone()).finish()
    }
}

/// The nodes that stand directly in a node, in the order of the text: what [`Node::children`] gives.
#[derive(Clone)]
#[must_use]
pub struct Children<'a> {
    parsed: &'a Parsed,
    at: usize,
    left: usize,
}

impl<'a> Iterator for Children<'a> {
    type Item = Node<'a>;

    #[inline]
    fn next(&mut self) -> Option<Node<'a>> {
        self.left = self.left.checked_sub(1)?;
        let node = Node::new(self.parsed, self.at);
        self.at = node.next();
        Some(node)
    }

    fn size_hint(&self) -> (usize, Option<usize>) {
        (self.left, Some(self.left))
    }
}

impl ExactSizeIterator for Children<'_> {}
impl FusedIterator for Children<'_> {}

impl fmt::Debug for Children<'_> {
    fn fmt(&self, f: &mut fmt::Formatter<'_>) -> fmt::Result {
        f.debug_list().entries(self.clone()).finish()
    }
}

/// A step of a [`Walk`].
#[derive(Clone, Copy, Debug, PartialEq, Eq, Hash)]
pub enum Event<'a> {
    /// The walk comes to a node; next come those that stand in it.
    Enter(Node<'a>),
    /// All that stands in the node has been left.
    Leave(Node<'a>),
}

/// Enters and leaves nodes: what [`Node::walk`] gives.
#[derive(Clone)]
#[must_use]
pub struct Walk<'a> {
    left: Nodes<'a>,
    open: Vec<Node<'a>>,
}

impl<'a> Walk<'a> {
    /// Leaves out what has not been entered of the innermost open node, which is left next. Right after [`Event::Enter`] this is all that stands in the node.
    ///
    /// ```
    /// use titaniumbat::{parse, Event, NodeKind};
    ///
    /// let parsed = parse("(?=(a))(b)", "")?;
    /// let mut walk = parsed.root().walk();
    /// let mut groups = Vec::new();
    /// while let Some(event) = walk.next() {
    ///     match event {
    ///         Event::Enter(node) => match node.kind() {
    ///             NodeKind::LookAroundAssertion { .. } => walk.skip_children(),
    ///             NodeKind::CapturingGroup { number, .. } => groups.push(number),
    ///             _ => {}
    ///         },
    ///         Event::Leave(_) => {}
    ///     }
    /// }
    /// assert_eq!(groups, [2]);
    /// # Ok::<(), titaniumbat::Error>(())
    /// ```
    pub fn skip_children(&mut self) {
        if let Some(node) = self.open.last() {
            self.left.indices.start = node.next();
        }
    }
}

impl<'a> Iterator for Walk<'a> {
    type Item = Event<'a>;

    fn next(&mut self) -> Option<Event<'a>> {
        let ended = |node: &Node<'a>| node.next() == self.left.indices.start;
        if self.open.last().is_some_and(ended) {
            return self.open.pop().map(Event::Leave);
        }
        let node = self.left.next()?;
        self.open.push(node);
        Some(Event::Enter(node))
    }

    fn size_hint(&self) -> (usize, Option<usize>) {
        let steps = 2 * self.left.len() + self.open.len();
        (steps, Some(steps))
    }
}

impl ExactSizeIterator for Walk<'_> {}
impl FusedIterator for Walk<'_> {}

impl fmt::Debug for Walk<'_> {
    fn fmt(&self, f: &mut fmt::Formatter<'_>) -> fmt::Result {
        f.debug_struct("Walk").field("left", &self.left.len()).field("open", &self.open).finish()
    }
}
