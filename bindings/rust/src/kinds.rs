//! What nodes are: their types and kinds, with the numbers that they have in records.

use crate::Span;
use std::fmt;
use std::ops::BitOr;

/// An enum whose variants have numbers in records, from the first one on.
macro_rules! kinds {
    (
        $(#[$about:meta])* $name:ident from $first:literal:
        $($(#[$variant_about:meta])* $variant:ident,)*
    ) => {
        $(#[$about])*
        #[derive(Clone, Copy, Debug, PartialEq, Eq, Hash)]
        pub enum $name {
            $($(#[$variant_about])* $variant,)*
        }

        impl $name {
            const ALL: &'static [$name] = &[$($name::$variant),*];

            #[inline]
            pub(crate) fn of(number: u8) -> $name {
                Self::ALL[usize::from(number) - $first]
            }
        }
    };
}

kinds! {
    /// What a boundary assertion asserts.
    BoundaryAssertionKind from 1:
    /// `^`
    Start,
    /// `$`
    End,
    /// `\b`
    Boundary,
    /// `\B`
    NegativeBoundary,
    /// `\A`
    StartBuffer,
    /// `\z`
    EndBuffer,
    /// `\Z`
    EndBufferOptionalNewline,
}

kinds! {
    /// In which direction a look-around assertion looks, and for what.
    LookAroundAssertionKind from 8:
    /// `(?=`
    Lookahead,
    /// `(?!`
    NegativeLookahead,
    /// `(?<=`
    Lookbehind,
    /// `(?<!`
    NegativeLookbehind,
}

kinds! {
    /// How a character is written. In an argument of `RegExp` an escape of the string counts too, where what it stands for stands for itself.
    CharacterKind from 12:
    /// `\ca`
    ControlLetter,
    /// `\x41`
    HexadecimalEscape,
    /// `\-`: it stands for itself after a backslash.
    Identifier,
    /// `\0`
    Null,
    /// `\1`: one octal digit, with neither `u` nor `v`.
    Octal1,
    /// `\12`
    Octal2,
    /// `\123`
    Octal3,
    /// `\n`
    SingleEscape,
    /// `a`: it stands for itself.
    Symbol,
    /// `\u0041`, `\u{41}`
    UnicodeEscape,
}

kinds! {
    /// Which characters a class escape matches.
    CharacterClassEscapeKind from 22:
    /// `\d`
    D,
    /// `\D`
    NegativeD,
    /// `\s`
    S,
    /// `\S`
    NegativeS,
    /// `\w`
    W,
    /// `\W`
    NegativeW,
}

kinds! {
    /// What a class makes of its items.
    CharacterClassContentsKind from 28:
    /// `[ab]`
    Union,
    /// `[a&&b]`
    Intersection,
    /// `[a--b]`
    Subtraction,
}

/// Modifiers: any of `i`, `m` and `s`.
///
/// ```
/// use titaniumbat::Modifier;
///
/// let both = Modifier::I | Modifier::S;
/// assert!(both.contains(Modifier::I) && !both.contains(Modifier::M));
/// assert_eq!(both.to_string(), "is");
/// ```
#[derive(Clone, Copy, Debug, Default, PartialEq, Eq, PartialOrd, Ord, Hash)]
pub struct Modifier(u8);

impl Modifier {
    /// `i`: case is ignored.
    pub const I: Modifier = Modifier(1);
    /// `m`: `^` and `$` match at each line.
    pub const M: Modifier = Modifier(2);
    /// `s`: `.` matches line terminators too.
    pub const S: Modifier = Modifier(4);

    /// Whether it has all of these.
    pub const fn contains(self, others: Modifier) -> bool {
        self.0 & others.0 == others.0
    }

    /// Whether it has none.
    pub const fn is_empty(self) -> bool {
        self.0 == 0
    }

    /// Its bits: 1 for `i`, 2 for `m`, 4 for `s`.
    pub const fn bits(self) -> u8 {
        self.0
    }

    #[inline]
    pub(crate) const fn of(bits: u8) -> Modifier {
        Modifier(bits)
    }
}

impl BitOr for Modifier {
    type Output = Modifier;

    fn bitor(self, other: Modifier) -> Modifier {
        Modifier(self.0 | other.0)
    }
}

/// Its letters, in the order `i`, `m`, `s`.
impl fmt::Display for Modifier {
    fn fmt(&self, f: &mut fmt::Formatter<'_>) -> fmt::Result {
        let all = [(Modifier::I, "i"), (Modifier::M, "m"), (Modifier::S, "s")];
        let own = all.iter().filter(|(modifier, _)| self.contains(*modifier));
        own.map(|(_, letter)| letter).try_for_each(|letter| f.write_str(letter))
    }
}

/// The modifiers of a group, as in `(?i-s:a)`.
#[derive(Clone, Copy, Debug, PartialEq, Eq, Hash)]
pub struct Modifiers {
    /// Where they stand, with the `-` between them.
    pub span: Span,
    /// Those that are switched on.
    pub enabling: Modifier,
    /// Those that are switched off.
    pub disabling: Modifier,
}

/// What a node is, and what is said of it besides its place and the nodes that stand in it.
///
/// Types and fields have the names that they have in the crate `oxc_regular_expression`. Its field `body`, and the `min` and `max` of a range of characters, are
/// [`Node::children`](crate::Node::children).
#[derive(Clone, Copy, Debug, PartialEq, Eq, Hash)]
pub enum NodeKind<'a> {
    /// The whole pattern. One child, a disjunction.
    Pattern,
    /// Its children are alternatives, of which there is at least one.
    Disjunction,
    /// Its children are terms, one after another: all nodes but a pattern, disjunctions, alternatives, and those that stand in classes alone.
    Alternative,
    /// `(?=a)`, `(?!a)`, `(?<=a)` or `(?<!a)`. One child, a disjunction.
    LookAroundAssertion {
        /// Which of the four.
        kind: LookAroundAssertionKind,
    },
    /// `a*`, `a+?`, `a{2,3}` and so on. One child, the term that it repeats.
    Quantifier {
        /// How often the term must match at least.
        min: u64,
        /// How often it may match at most. `None`: there is no limit.
        max: Option<u64>,
        /// Whether it first tries to match once more.
        greedy: bool,
    },
    /// `(a)` or `(?<year>a)`. One child, a disjunction.
    CapturingGroup {
        /// Its name, with escapes decoded.
        name: Option<&'a str>,
        /// Which group from the left it is, from 1 on.
        number: u32,
    },
    /// `(?:a)` or `(?i-s:a)`. One child, a disjunction.
    IgnoreGroup {
        /// Its modifiers. `None`: `(?:`.
        modifiers: Option<Modifiers>,
    },
    /// `^`, `$`, `\b` and others.
    BoundaryAssertion {
        /// Which of them.
        kind: BoundaryAssertionKind,
    },
    /// A character, in a class too.
    Character {
        /// How it is written.
        kind: CharacterKind,
        /// Its code point, or the code unit of a surrogate that stands alone. With neither `u` nor `v` a character past U+FFFF is two nodes: a lead at its place, and a
        /// trail with an empty place after it.
        value: u32,
    },
    /// `.`
    Dot,
    /// `\d`, `\D`, `\s`, `\S`, `\w` or `\W`, in a class too.
    CharacterClassEscape {
        /// Which of the six.
        kind: CharacterClassEscapeKind,
    },
    /// `\p{Script=Greek}` or `\P{Letter}`, in a class too.
    UnicodePropertyEscape {
        /// Whether it is `\P`.
        negative: bool,
        /// Whether it is a property of strings.
        strings: bool,
        /// The name of the property, as it is written. That of `\p{Letter}`, which is a value alone, is `General_Category`.
        name: &'a str,
        /// Its value, where it is a property that has values.
        value: Option<&'a str>,
    },
    /// `[a-z]`, with `v` also in another class. Its children are its items: characters, ranges, class escapes, property escapes, classes, and string disjunctions.
    CharacterClass {
        /// Whether it begins with `[^`.
        negative: bool,
        /// Whether it may match a string that is not one character.
        strings: bool,
        /// What it makes of its items.
        kind: CharacterClassContentsKind,
    },
    /// `a-z` in a class. Two children, the least character and the greatest.
    CharacterClassRange,
    /// `\q{a|bc}` in a class, with `v`. Its children are class strings.
    ClassStringDisjunction {
        /// Whether it may match a string that is not one character.
        strings: bool,
    },
    /// One of the strings of `\q{a|bc}`. Its children are characters.
    ClassString {
        /// Whether it is not one character.
        strings: bool,
    },
    /// `\1`
    IndexedReference {
        /// The number of the group that it means.
        index: u32,
    },
    /// `\k<year>`
    NamedReference {
        /// The name of the groups that it means, with escapes decoded.
        name: &'a str,
    },
}
