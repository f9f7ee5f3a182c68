// Places are offsets in UTF-16 code units, as strings of JavaScript have them, with the offset of the options added: from `start` to before `end`.
// So pattern.slice(node.start, node.end) is the text of a node; of the second half of a character past U+FFFF, with neither `u` nor `v`, it is empty.
// An empty pattern is read as (?:), and has the places of that text.

/**
 * Reads a pattern.
 *
 * @param pattern The text between the slashes of a literal, or the `source` of a RegExp. With the option `form: "constructor"` the first argument of
 *   `RegExp` as it stands in the source, with its quotes.
 * @param flags The letters after the slashes, or the second argument of `RegExp` with its quotes. Undefined and null are no flags.
 * @throws RegExpRefused where the pattern or its flags are not valid.
 * @throws TypeError where an argument has the wrong type, or a text has a surrogate that stands alone: in UTF-8 there is none. In a pattern write it as an escape.
 * @throws RangeError where an offset is too large, or there is not enough memory.
 */
export function parse(pattern: string, flags?: string | null, options?: Options | null): Parsed;

/**
 * Says what is wrong with a pattern: the refusal, or null where it is valid. No tree is made. It takes what `parse` takes, and throws what `parse` throws but for
 * the refusal.
 */
export function check(pattern: string, flags?: string | null, options?: Options | null): RegExpRefused | null;

/** The canonical spelling of a pattern, as a literal, without the tree. It takes what `parse` takes, and throws what `parse` throws. */
export function canonical(pattern: string, flags?: string | null, options?: Options | null): string;

/**
 * Loads the module. In browsers it must be awaited before any other call; in node those can be made at once, and this does nothing. It gives the other calls.
 *
 * @param source Where the module is: its address, its bytes, or the compiled module. By default `titaniumbat.wasm` beside the code.
 */
export function load(source?: string | URL | ArrayBuffer | ArrayBufferView | WebAssembly.Module): Promise<{ parse: typeof parse; check: typeof check; canonical: typeof canonical }>;

/** How a pattern is read. */
export interface Options {
  /** Whether the texts are those of a literal, or arguments of `RegExp` with their quotes. By default "literal". */
  form?: "literal" | "constructor";
  /** What is added to each place in the pattern. By default 0. */
  offset?: number;
  /** What is added to each place in the flags. By default 0. */
  flagsOffset?: number;
  /** Whether two groups may have one name where they never both take part. By default true. */
  duplicateNames?: boolean;
  /** Whether `\A`, `\z` and `\Z` are boundaries with `u` or `v`. By default true. */
  bufferBoundaries?: boolean;
  /** Whether arguments of `RegExp` are read as ECMA-262 has them, and not as the Rust crate does. By default false. */
  standardStrings?: boolean;
}

/** A pattern that was read. Nodes are made when they are asked for, and each is the same object each time. */
export class Parsed {
  private constructor();
  /** "legacy" without the flags `u` and `v`, "unicode" with `u`, "sets" with `v`. */
  readonly mode: "legacy" | "unicode" | "sets";
  /** The canonical spelling, as a literal. */
  readonly spelling: string;
  /** The whole pattern. */
  readonly root: Pattern;
  /** How many nodes there are. */
  readonly count: number;
  /** The capturing groups, in the order of their numbers: group n is at n - 1. */
  readonly groups: readonly CapturingGroup[];
  /** The names of the groups, each once, in the order in which they first come. */
  readonly names: string[];
  /** The node with this id, from 0 to before `count`. */
  node(id: number): Node;
  /** All nodes, in the order of the text: each before those that stand in it. */
  nodes(): Generator<Node, void>;
  /** Mode, spelling, groups, names and tree, as the reply of docs/JSON.md, with places in UTF-16 alone. */
  toJSON(): object;
}

/** Why a pattern was not read. The fields have the values of docs/JSON.md, where `code` is called `name`. */
export class RegExpRefused extends SyntaxError {
  private constructor();
  /** The class, as of any error. */
  readonly name: "RegExpRefused";
  /** What the refusal is called, such as "unknown_modifiers". */
  readonly code: string;
  /** Which kind it is, where there are several of its code. */
  readonly kind: Kind | null;
  /** What else it holds, by its name. */
  readonly values: Values;
  /** The text in which its spans lie. */
  readonly field: "pattern" | "flags";
  /** Its place; two where two groups have one name. */
  readonly spans: Span[];
  /** What to write instead, in one line, where that can be said. */
  readonly help: string | null;
  /** The message and all of these, by the names of docs/JSON.md: the code is `name`. */
  toJSON(): object;
}

/** From `start` to before `end`. */
export interface Span {
  start: number;
  end: number;
}

/** What a refusal holds, by its code. */
export interface Values {
  flag?: string;
  max?: number;
  names?: string[];
  name?: string;
}

/** Which kind a refusal is, where there are several of its code. */
export type Kind =
  | "look_around"
  | "capturing_group"
  | "ignore_group"
  | "group_name"
  | "property_escape"
  | "character_class"
  | "nested_class"
  | "class_string_disjunction"
  | "class_atom"
  | "class_set"
  | "intersection"
  | "subtraction"
  | "decimal"
  | "hex"
  | "name"
  | "name_or_value";

/** A node of the tree. Its type says which fields it has: those of docs/JSON.md. */
export type Node =
  | Pattern
  | Disjunction
  | Alternative
  | Term
  | CharacterClassRange
  | ClassStringDisjunction
  | ClassString;

/** What nodes of all types have. */
export interface Base {
  /** The number of the node in the order of the text, from 0 on. */
  readonly id: number;
  readonly start: number;
  readonly end: number;
  /** The nodes that stand directly in it, in the order of the text. */
  readonly children: Node[];
  /** The node in which it stands directly; of the pattern null. */
  readonly parent: Node | null;
  /** All nodes in it, in the order of the text. */
  descendants(): Generator<Node, void>;
  /** It and all nodes in it as plain objects, with the fields of docs/JSON.md, and places in UTF-16 alone. */
  toJSON(): object;
}

export interface Pattern extends Base {
  readonly type: "Pattern";
  readonly body: Disjunction;
}

export interface Disjunction extends Base {
  readonly type: "Disjunction";
  readonly body: Alternative[];
}

export interface Alternative extends Base {
  readonly type: "Alternative";
  readonly body: Term[];
}

/** What stands in an alternative. */
export type Term =
  | BoundaryAssertion
  | LookAroundAssertion
  | Quantifier
  | Character
  | Dot
  | CharacterClassEscape
  | UnicodePropertyEscape
  | CharacterClass
  | CapturingGroup
  | IgnoreGroup
  | IndexedReference
  | NamedReference;

export interface BoundaryAssertion extends Base {
  readonly type: "BoundaryAssertion";
  readonly kind: "start" | "end" | "boundary" | "negativeBoundary" | "startBuffer" | "endBuffer" | "endBufferOptionalNewline";
}

export interface LookAroundAssertion extends Base {
  readonly type: "LookAroundAssertion";
  readonly kind: "lookahead" | "negativeLookahead" | "lookbehind" | "negativeLookbehind";
  readonly body: Disjunction;
}

export interface Quantifier extends Base {
  readonly type: "Quantifier";
  readonly min: number;
  /** Null where there is no maximum. */
  readonly max: number | null;
  readonly greedy: boolean;
  readonly body: Term;
}

export interface Character extends Base {
  readonly type: "Character";
  readonly kind:
    | "controlLetter"
    | "hexadecimalEscape"
    | "identifier"
    | "null"
    | "octal1"
    | "octal2"
    | "octal3"
    | "singleEscape"
    | "symbol"
    | "unicodeEscape";
  /** Its code point; of one half of a character past U+FFFF with neither `u` nor `v`, and of a surrogate that stands alone, the code unit. */
  readonly value: number;
}

export interface Dot extends Base {
  readonly type: "Dot";
}

export interface CharacterClassEscape extends Base {
  readonly type: "CharacterClassEscape";
  readonly kind: "d" | "negativeD" | "s" | "negativeS" | "w" | "negativeW";
}

export interface UnicodePropertyEscape extends Base {
  readonly type: "UnicodePropertyEscape";
  readonly negative: boolean;
  readonly strings: boolean;
  readonly name: string;
  readonly value: string | null;
}

export interface CharacterClass extends Base {
  readonly type: "CharacterClass";
  readonly negative: boolean;
  readonly strings: boolean;
  readonly kind: "union" | "intersection" | "subtraction";
  readonly body: ClassItem[];
}

/** What stands in a class. */
export type ClassItem =
  | CharacterClassRange
  | CharacterClassEscape
  | UnicodePropertyEscape
  | Character
  | CharacterClass
  | ClassStringDisjunction;

export interface CharacterClassRange extends Base {
  readonly type: "CharacterClassRange";
  readonly min: Character;
  readonly max: Character;
}

export interface ClassStringDisjunction extends Base {
  readonly type: "ClassStringDisjunction";
  readonly strings: boolean;
  readonly body: ClassString[];
}

export interface ClassString extends Base {
  readonly type: "ClassString";
  readonly strings: boolean;
  readonly body: Character[];
}

export interface CapturingGroup extends Base {
  readonly type: "CapturingGroup";
  /** Which group from the left it is, from 1 on. */
  readonly number: number;
  readonly name: string | null;
  readonly body: Disjunction;
}

export interface IgnoreGroup extends Base {
  readonly type: "IgnoreGroup";
  readonly modifiers: Modifiers | null;
  readonly body: Disjunction;
}

export interface Modifiers extends Span {
  readonly type: "Modifiers";
  /** Letters of `ims`, each at most once, in this order. */
  readonly enabling: string;
  readonly disabling: string;
}

export interface IndexedReference extends Base {
  readonly type: "IndexedReference";
  readonly index: number;
}

export interface NamedReference extends Base {
  readonly type: "NamedReference";
  readonly name: string;
}
