// The requests and replies of the command `json`, as docs/JSON.md describes them.
// One value a line: const reply: Reply = JSON.parse(line).

/** What may stand in `want` besides features. */
export type Part = "spelling" | "groups" | "tree" | "display";

/** What an engine may lack. Asked of literals alone. */
export type Feature =
  | "sticky"
  | "unicode"
  | "dot_all"
  | "match_indices"
  | "unicode_sets"
  | "named_capture_groups"
  | "duplicate_named_capture_groups"
  | "unicode_property_escapes"
  | "look_behind_assertions"
  | "pattern_modifiers"
  | "buffer_boundaries";

/** A line that is sent. */
export interface Request {
  /** The text between the slashes, or the first argument of `RegExp` with its quotes. */
  pattern: string;
  form?: "literal" | "constructor";
  /** The letters after the slash, or the second argument of `RegExp` with its quotes. */
  flags?: string;
  offset?: number;
  flagsOffset?: number;
  duplicateNames?: boolean;
  bufferBoundaries?: boolean;
  standardStrings?: boolean;
  want?: (Part | Feature)[];
  /** Any value; it is given back. */
  id?: unknown;
}

/** A line that is received. */
export type Reply = Ok | Refused | Bad;

/** The pattern is read. */
export interface Ok {
  id: unknown;
  status: "ok";
  mode: "legacy" | "unicode" | "sets";
  spelling?: string;
  groups?: Group[];
  names?: string[];
  tree?: Pattern;
  unsupported?: Feature[];
  display?: string;
}

/** The flags or the pattern are refused. */
export interface Refused {
  id: unknown;
  status: "refused";
  name: string;
  kind: Kind | null;
  values: Values;
  message: string;
  field: "flags" | "pattern";
  spans: Place[];
  help: string | null;
}

/** The line is no request. */
export interface Bad {
  id: unknown;
  status: "bad";
  why: string;
}

/** From `start` to before `end`: in bytes of UTF-8, and in code units of UTF-16. */
export interface Place {
  start: number;
  end: number;
  start16: number;
  end16: number;
}

export interface Group extends Place {
  number: number;
  name: string | null;
}

/** What a refusal holds, by its name. */
export interface Values {
  flag?: string;
  max?: number;
  names?: string[];
  name?: string;
}

/** Which kind a refusal is, where there are several of its name. */
export type Kind =
  | "look_around"
  | "capturing_group"
  | "ignore_group"
  | "group_name"
  | "property_escape"
  | "character_class"
  | "nested_class"
  | "class_string_disjunction"
  | "class_atom"
  | "class_set"
  | "intersection"
  | "subtraction"
  | "decimal"
  | "hex"
  | "name"
  | "name_or_value";

export interface Pattern extends Place {
  type: "Pattern";
  body: Disjunction;
}

export interface Disjunction extends Place {
  type: "Disjunction";
  body: Alternative[];
}

export interface Alternative extends Place {
  type: "Alternative";
  body: Term[];
}

/** What stands in an alternative. */
export type Term =
  | BoundaryAssertion
  | LookAroundAssertion
  | Quantifier
  | Character
  | Dot
  | CharacterClassEscape
  | UnicodePropertyEscape
  | CharacterClass
  | CapturingGroup
  | IgnoreGroup
  | IndexedReference
  | NamedReference;

export interface BoundaryAssertion extends Place {
  type: "BoundaryAssertion";
  kind: "start" | "end" | "boundary" | "negativeBoundary" | "startBuffer" | "endBuffer" | "endBufferOptionalNewline";
}

export interface LookAroundAssertion extends Place {
  type: "LookAroundAssertion";
  kind: "lookahead" | "negativeLookahead" | "lookbehind" | "negativeLookbehind";
  body: Disjunction;
}

export interface Quantifier extends Place {
  type: "Quantifier";
  min: number;
  /** Null where there is no maximum. */
  max: number | null;
  greedy: boolean;
  body: Term;
}

export interface Character extends Place {
  type: "Character";
  kind:
    | "controlLetter"
    | "hexadecimalEscape"
    | "identifier"
    | "null"
    | "octal1"
    | "octal2"
    | "octal3"
    | "singleEscape"
    | "symbol"
    | "unicodeEscape";
  /** Its code point; of one half of a character past U+FFFF with neither `u` nor `v`, and of a surrogate that stands alone, the code unit. */
  value: number;
}

export interface Dot extends Place {
  type: "Dot";
}

export interface CharacterClassEscape extends Place {
  type: "CharacterClassEscape";
  kind: "d" | "negativeD" | "s" | "negativeS" | "w" | "negativeW";
}

export interface UnicodePropertyEscape extends Place {
  type: "UnicodePropertyEscape";
  negative: boolean;
  strings: boolean;
  name: string;
  value: string | null;
}

export interface CharacterClass extends Place {
  type: "CharacterClass";
  negative: boolean;
  strings: boolean;
  kind: "union" | "intersection" | "subtraction";
  body: ClassItem[];
}

/** What stands in a class. */
export type ClassItem =
  | CharacterClassRange
  | CharacterClassEscape
  | UnicodePropertyEscape
  | Character
  | CharacterClass
  | ClassStringDisjunction;

export interface CharacterClassRange extends Place {
  type: "CharacterClassRange";
  min: Character;
  max: Character;
}

export interface ClassStringDisjunction extends Place {
  type: "ClassStringDisjunction";
  strings: boolean;
  body: ClassString[];
}

export interface ClassString extends Place {
  type: "ClassString";
  strings: boolean;
  body: Character[];
}

export interface CapturingGroup extends Place {
  type: "CapturingGroup";
  name: string | null;
  body: Disjunction;
}

export interface IgnoreGroup extends Place {
  type: "IgnoreGroup";
  modifiers: Modifiers | null;
  body: Disjunction;
}

export interface Modifiers extends Place {
  type: "Modifiers";
  /** Letters of `ims`, each at most once, in this order. */
  enabling: string;
  disabling: string;
}

export interface IndexedReference extends Place {
  type: "IndexedReference";
  index: number;
}

export interface NamedReference extends Place {
  type: "NamedReference";
  name: string;
}
