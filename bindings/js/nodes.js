// A tree as the module records it, and nodes that read their fields out of the records when they are asked.
// bindings/c/include/titaniumbat.h says what stands where in a record (tb_node), and has the numbers of types and kinds.
const SIZE = 72;
const AT = { kind: 1, enabling: 2, disabling: 3, negative: 4, strings: 5, greedy: 6, hasMax: 7, hasName: 8, hasValue: 9, hasModifiers: 10 };
const AT_WORD = { number: 12, start: 16, end: 20, children: 24, next: 28, modifiers: 32, name: 40, value: 48, min: 56, max: 64 };

const KINDS = [
  null,
  ...["start", "end", "boundary", "negativeBoundary", "startBuffer", "endBuffer", "endBufferOptionalNewline"],
  ...["lookahead", "negativeLookahead", "lookbehind", "negativeLookbehind"],
  ...["controlLetter", "hexadecimalEscape", "identifier", "null", "octal1", "octal2", "octal3", "singleEscape", "symbol", "unicodeEscape"],
  ...["d", "negativeD", "s", "negativeS", "w", "negativeW"],
  ...["union", "intersection", "subtraction"],
];

const decoder = new TextDecoder("utf-8", { ignoreBOM: true });

/** The records of one tree, and the nodes that were made of them. The id of a node is the index of its record. */
export class Records {
  #view;
  #texts;
  #nodes;
  #parents = null;

  /** `records` is an ArrayBuffer, `texts` are the bytes in which names stand. */
  constructor(records, texts) {
    this.count = records.byteLength / SIZE;
    this.#view = new DataView(records);
    this.#texts = texts;
    this.#nodes = new Array(this.count);
  }

  byte(id, at) {
    return this.#view.getUint8(id * SIZE + at);
  }

  flag(id, at) {
    return this.byte(id, at) !== 0;
  }

  word(id, at) {
    return this.#view.getUint32(id * SIZE + at, true);
  }

  /** A number of 64 bits. Those of a tree are at most 2^53 - 1. */
  long(id, at) {
    return this.word(id, at + 4) * 2 ** 32 + this.word(id, at);
  }

  text(id, at) {
    return decoder.decode(this.#texts.subarray(this.word(id, at), this.word(id, at + 4)));
  }

  /** The node with this id, the same object each time. */
  node(id) {
    return (this.#nodes[id] ??= new TYPES[this.byte(id, 0)](this, id));
  }

  /** The id after a node and all nodes in it. */
  next(id) {
    return this.word(id, AT_WORD.next);
  }

  /** The ids of the nodes that stand directly in a node. */
  childrenOf(id) {
    const children = new Array(this.word(id, AT_WORD.children));
    for (let at = 0, child = id + 1; at < children.length; at++, child = this.next(child)) children[at] = child;
    return children;
  }

  /** The id of the node in which a node stands directly; of the first one -1. */
  parentOf(id) {
    this.#parents ??= this.#allParents();
    return this.#parents[id];
  }

  #allParents() {
    const parents = new Int32Array(this.count).fill(-1);
    for (let id = 1; id < this.count; id++) {
      let parent = id - 1;
      while (this.next(parent) <= id) parent = parents[parent];
      parents[id] = parent;
    }
    return parents;
  }
}

/** What nodes of all types have. */
class Node {
  #records;
  #id;

  constructor(records, id) {
    this.#records = records;
    this.#id = id;
  }

  get id() {
    return this.#id;
  }

  get type() {
    return NAMES[this.#records.byte(this.#id, 0)];
  }

  get start() {
    return this.#records.word(this.#id, AT_WORD.start);
  }

  get end() {
    return this.#records.word(this.#id, AT_WORD.end);
  }

  get children() {
    return this.#records.childrenOf(this.#id).map((child) => this.#records.node(child));
  }

  get parent() {
    const parent = this.#records.parentOf(this.#id);
    return parent < 0 ? null : this.#records.node(parent);
  }

  *descendants() {
    const end = this.#records.next(this.#id);
    for (let id = this.#id + 1; id < end; id++) yield this.#records.node(id);
  }

  /** The last node in it is made first, so that a deep tree needs no deep stack. */
  toJSON() {
    const end = this.#records.next(this.#id);
    const made = new Array(end - this.#id);
    for (let id = end - 1; id >= this.#id; id--) {
      made[id - this.#id] = plain(this.#records.node(id), (node) => made[node.id - this.#id]);
    }
    return made[0];
  }

  /** What node's console.log shows: the fields, and of nodes in it the types. */
  [Symbol.for("nodejs.util.inspect.custom")]() {
    return plain(this, (node) => `[${node.type}]`);
  }

  /** A class of the nodes of one type: each field is read by its function. */
  static of(type, fields, others = {}) {
    const made = { [type]: class extends Node {} }[type];
    for (const [field, read] of Object.entries({ ...fields, ...others })) {
      const get = function () {
        return read(this.#records, this.#id);
      };
      Object.defineProperty(made.prototype, field, { get, enumerable: true });
    }
    return made;
  }
}

/** A node as a plain object, with what `inside` gives in place of the nodes that stand in it. */
function plain(node, inside) {
  const made = { type: node.type, start: node.start, end: node.end };
  for (const field of Object.keys(FIELDS[node.type])) {
    const value = node[field];
    made[field] = value instanceof Node ? inside(value) : Array.isArray(value) ? value.map(inside) : value;
  }
  return made;
}

// Each of these reads a field of the node with this id.
const flag = (at) => (records, id) => records.flag(id, at);
const long = (at) => (records, id) => records.long(id, at);
const text = (at) => (records, id) => records.text(id, at);
const maybe = (at, read) => (records, id) => (records.flag(id, at) ? read(records, id) : null);
const number = (records, id) => records.word(id, AT_WORD.number);
const kind = (records, id) => KINDS[records.byte(id, AT.kind)];
const negative = flag(AT.negative);
const strings = flag(AT.strings);
const name = maybe(AT.hasName, text(AT_WORD.name));
const only = (records, id) => records.node(id + 1);
const second = (records, id) => records.node(records.next(id + 1));
const all = (records, id) => records.node(id).children;

const letters = (bits) => ["i", "m", "s"].filter((_, bit) => bits & (1 << bit)).join("");
const modifiers = (records, id) => ({
  type: "Modifiers",
  start: records.word(id, AT_WORD.modifiers),
  end: records.word(id, AT_WORD.modifiers + 4),
  enabling: letters(records.byte(id, AT.enabling)),
  disabling: letters(records.byte(id, AT.disabling)),
});

// The fields of each type, in the order of docs/JSON.md, and how they are read. The types stand in the order of their numbers, from 1 on.
const FIELDS = {
  Pattern: { body: only },
  Disjunction: { body: all },
  Alternative: { body: all },
  LookAroundAssertion: { kind, body: only },
  Quantifier: { min: long(AT_WORD.min), max: maybe(AT.hasMax, long(AT_WORD.max)), greedy: flag(AT.greedy), body: only },
  CapturingGroup: { name, body: only },
  IgnoreGroup: { modifiers: maybe(AT.hasModifiers, modifiers), body: only },
  BoundaryAssertion: { kind },
  Character: { kind, value: number },
  Dot: {},
  CharacterClassEscape: { kind },
  UnicodePropertyEscape: { negative, strings, name, value: maybe(AT.hasValue, text(AT_WORD.value)) },
  CharacterClass: { negative, strings, kind, body: all },
  CharacterClassRange: { min: only, max: second },
  ClassStringDisjunction: { strings, body: all },
  ClassString: { strings, body: all },
  IndexedReference: { index: number },
  NamedReference: { name },
};

// What nodes have besides, though no object of docs/JSON.md has it.
const OTHERS = { CapturingGroup: { number } };

const NAMES = [null, ...Object.keys(FIELDS)];
const TYPES = NAMES.map((type) => type && Node.of(type, FIELDS[type], OTHERS[type]));
