// The tree as an outline. Only the rows in sight are in the page, so that a tree of any size can be scrolled through; which nodes are closed is kept beside them.
import { piece, tokenAt } from "./paint.js";

const AROUND = 12; // rows that are made above and below those in sight
const DEEPEST = 24; // levels that are indented
const SHOWN = 60; // characters of a node's text

const plural = (count, one, more = `${one}s`) => `${count.toLocaleString("en")} ${count === 1 ? one : more}`;

function characterMeans({ value, kind }) {
  const number = `U+${value.toString(16).toUpperCase().padStart(4, "0")}`;
  const isPlain = kind === "symbol" ? "" : ", as an escape";
  const isShown = /[^\p{C}\p{Z}]/u.test(String.fromCodePoint(value));
  return isShown ? `${String.fromCodePoint(value)}  ${number}${isPlain}` : `${number}${isPlain}`;
}

function timesMean({ min, max, greedy }) {
  const most = max === null ? " or more" : max === min ? "" : ` to ${max}`;
  return `${min}${most} ${min === 1 && max === 1 ? "time" : "times"}${max === min ? "" : greedy ? ", as often as possible" : ", as seldom as possible"}`;
}

const BOUNDARIES = {
  start: "the start",
  end: "the end",
  boundary: "an edge of a word",
  negativeBoundary: "no edge of a word",
  startBuffer: "the start of all",
  endBuffer: "the end of all",
  endBufferOptionalNewline: "the end of all, or before its last line break",
};
const LOOKS = {
  lookahead: "this follows",
  negativeLookahead: "this does not follow",
  lookbehind: "this stands before",
  negativeLookbehind: "this does not stand before",
};
const ESCAPES = {
  d: "a digit",
  negativeD: "no digit",
  s: "white space",
  negativeS: "no white space",
  w: "a letter, digit or _",
  negativeW: "no letter, digit or _",
};
const CLASSES = { union: "any of these", intersection: "what is in all of these", subtraction: "the first without the others" };

const property = ({ negative, name, value }) => `${negative ? "not " : ""}${value === null ? name : `${name} = ${value}`}`;
const switched = ({ enabling, disabling }) => [enabling && `${enabling} on`, disabling && `${disabling} off`].filter(Boolean).join(", ");

// What a node means, in words.
const MEANS = {
  Pattern: () => "all of it",
  Disjunction: ({ body }) => (body.length === 1 ? "" : `one of ${plural(body.length, "alternative")}`),
  Alternative: ({ body }) => (body.length === 0 ? "nothing" : plural(body.length, "part")),
  LookAroundAssertion: ({ kind }) => LOOKS[kind],
  Quantifier: timesMean,
  CapturingGroup: ({ number, name }) => (name === null ? `group ${number}` : `group ${number}, ${name}`),
  IgnoreGroup: ({ modifiers }) => (modifiers === null ? "without a number" : `with ${switched(modifiers)}`),
  BoundaryAssertion: ({ kind }) => BOUNDARIES[kind],
  Character: characterMeans,
  Dot: () => "any character",
  CharacterClassEscape: ({ kind }) => ESCAPES[kind],
  UnicodePropertyEscape: property,
  CharacterClass: ({ negative, kind }) => (negative ? `not ${CLASSES[kind]}` : CLASSES[kind]),
  CharacterClassRange: ({ min, max }) => `${characterMeans(min)} to ${characterMeans(max)}`,
  ClassStringDisjunction: ({ body }) => (body.length === 1 ? "a string" : `one of ${plural(body.length, "string")}`),
  ClassString: ({ body }) => (body.length === 0 ? "the empty string" : plural(body.length, "character")),
  IndexedReference: ({ index }) => `what group ${index} matched`,
  NamedReference: ({ name }) => `what group ${name} matched`,
};

const FRAMES = new Set(["Pattern", "Disjunction", "Alternative"]);

/** For each node: how deep it is, from 1 on, and which child of how many. */
function placesOf(parsed) {
  const places = { level: new Uint32Array(parsed.count), position: new Uint32Array(parsed.count), children: new Uint32Array(parsed.count), next: new Uint32Array(parsed.count).fill(parsed.count) };
  const open = [];
  for (const node of parsed.nodes()) {
    while (open.length > 0 && parsed.node(open.at(-1)) !== node.parent) places.next[open.pop()] = node.id;
    places.level[node.id] = open.length + 1;
    places.position[node.id] = open.length > 0 ? ++places.children[open.at(-1)] : 1;
    open.push(node.id);
  }
  return places;
}

/** The outline in an element with the role of a tree. `onMark` is told which node is pointed at, null where none is, and whether it was moved to or clicked. */
export class Outline {
  #tree;
  #rows;
  #onMark;
  #parsed = null;
  #text = "";
  #tokens = [];
  #places = null;
  #closed = new Set();
  #ids = [];
  #active = 0;

  constructor(tree, onMark) {
    this.#tree = tree;
    this.#rows = tree.firstElementChild;
    this.#onMark = onMark;
    tree.addEventListener("scroll", () => this.#render(), { passive: true });
    tree.addEventListener("keydown", (event) => this.#press(event));
    tree.addEventListener("click", (event) => this.#click(event));
    tree.addEventListener("pointerover", (event) => this.#mark(rowOf(event.target) ?? (this.#hasFocus() ? this.#active : null)));
    tree.addEventListener("pointerleave", () => this.#mark(this.#hasFocus() ? this.#active : null));
    tree.addEventListener("focus", () => this.#mark(this.#active));
    tree.addEventListener("blur", () => this.#mark(null));
    new ResizeObserver(() => this.#render()).observe(tree);
  }

  /** Shows the tree of a pattern with its text and tokens, or none. */
  show(parsed, text = "", tokens = []) {
    this.#parsed = parsed;
    this.#text = text;
    this.#tokens = tokens;
    this.#places = parsed && placesOf(parsed);
    this.#closed.clear();
    this.#active = 0;
    this.#list();
    this.#tree.scrollTop = 0;
  }

  /** Makes a node the active one, and opens those in which it stands. */
  select(id) {
    if (this.#parsed === null) return;
    for (let node = this.#parsed.node(id).parent; node !== null; node = node.parent) this.#closed.delete(node.id);
    this.#active = id;
    this.#list();
    this.#reveal();
  }

  #hasFocus() {
    return document.activeElement === this.#tree;
  }

  #mark(id, isChosen = false) {
    this.#onMark(this.#parsed === null || id === null ? null : this.#parsed.node(id), isChosen);
  }

  /** Puts the nodes together that stand in no closed one. */
  #list() {
    this.#ids = [];
    const count = this.#parsed?.count ?? 0;
    for (let id = 0; id < count; id = this.#closed.has(id) ? this.#places.next[id] : id + 1) this.#ids.push(id);
    this.#rows.style.height = `${this.#ids.length * this.#height()}px`;
    this.#render();
  }

  #height() {
    return parseFloat(getComputedStyle(this.#tree).getPropertyValue("--row-height"));
  }

  #render() {
    const height = this.#height();
    const first = Math.max(0, Math.floor(this.#tree.scrollTop / height) - AROUND);
    const after = Math.ceil((this.#tree.scrollTop + this.#tree.clientHeight) / height) + AROUND;
    const ids = this.#ids.slice(first, after);
    this.#rows.replaceChildren(...ids.map((id, at) => this.#row(id, (first + at) * height)));
    if (ids.includes(this.#active)) this.#tree.setAttribute("aria-activedescendant", `node-${this.#active}`);
    else this.#tree.removeAttribute("aria-activedescendant");
  }

  #row(id, top) {
    const node = this.#parsed.node(id);
    const { level, position, children } = this.#places;
    const row = document.createElement("div");
    row.id = `node-${id}`;
    row.dataset.id = id;
    row.style.top = `${top}px`;
    row.style.setProperty("--depth", Math.min(level[id] - 1, DEEPEST));
    row.setAttribute("role", "treeitem");
    row.setAttribute("aria-level", level[id]);
    row.setAttribute("aria-posinset", position[id]);
    row.setAttribute("aria-setsize", id === 0 ? 1 : children[node.parent.id]);
    row.setAttribute("aria-selected", id === this.#active);
    if (children[id] > 0) row.setAttribute("aria-expanded", !this.#closed.has(id));
    row.classList.toggle("frame", FRAMES.has(node.type));
    row.append(piece("", "twist"), piece(node.type, "type"), piece(MEANS[node.type](node), "means"), this.#code(node));
    return row;
  }

  /** The text of a node in colours, or the front of it. */
  #code({ start, end }) {
    const code = document.createElement("code");
    const last = Math.min(end, start + SHOWN);
    for (let at = tokenAt(this.#tokens, start); at < this.#tokens.length && this.#tokens[at].start < last; at++) {
      const token = this.#tokens[at];
      code.append(piece(this.#text.slice(Math.max(token.start, start), Math.min(token.end, last)), token.kind));
    }
    if (last < end) code.append("…");
    return code;
  }

  #move(at) {
    this.#active = this.#ids[Math.min(Math.max(at, 0), this.#ids.length - 1)];
    this.#reveal();
    this.#render();
    this.#mark(this.#active, true);
  }

  /** Scrolls so that the active row is in sight. */
  #reveal() {
    const height = this.#height();
    const top = this.#ids.indexOf(this.#active) * height;
    const { scrollTop, clientHeight } = this.#tree;
    if (top < scrollTop) this.#tree.scrollTop = top;
    else if (top + height > scrollTop + clientHeight) this.#tree.scrollTop = top + height - clientHeight;
  }

  #toggle(id, isOpen) {
    if (this.#places.children[id] === 0) return;
    if (isOpen) this.#closed.delete(id);
    else this.#closed.add(id);
    this.#list();
  }

  #click(event) {
    const id = rowOf(event.target);
    if (id === null) return;
    this.#active = id;
    if (event.target.classList.contains("twist")) this.#toggle(id, this.#closed.has(id));
    else this.#render();
    this.#mark(id, true);
  }

  #press(event) {
    if (this.#parsed === null || event.ctrlKey || event.metaKey || event.altKey) return;
    const at = this.#ids.indexOf(this.#active);
    const page = Math.max(1, Math.floor(this.#tree.clientHeight / this.#height()) - 1);
    const moves = {
      ArrowDown: () => this.#move(at + 1),
      ArrowUp: () => this.#move(at - 1),
      PageDown: () => this.#move(at + page),
      PageUp: () => this.#move(at - page),
      Home: () => this.#move(0),
      End: () => this.#move(this.#ids.length - 1),
      ArrowRight: () => this.#enter(at),
      ArrowLeft: () => this.#leave(),
      Enter: () => this.#toggle(this.#active, this.#closed.has(this.#active)),
      " ": () => this.#toggle(this.#active, this.#closed.has(this.#active)),
    };
    if (!Object.hasOwn(moves, event.key)) return;
    event.preventDefault();
    moves[event.key]();
  }

  /** Opens the active node, or moves to the first one in it. */
  #enter(at) {
    if (this.#closed.has(this.#active)) this.#toggle(this.#active, true);
    else if (this.#places.children[this.#active] > 0) this.#move(at + 1);
  }

  /** Closes the active node, or moves to the one in which it stands. */
  #leave() {
    const { parent } = this.#parsed.node(this.#active);
    if (this.#places.children[this.#active] > 0 && !this.#closed.has(this.#active)) this.#toggle(this.#active, false);
    else if (parent !== null) this.#move(this.#ids.indexOf(parent.id));
  }
}

function rowOf(target) {
  const row = target.closest('[role="treeitem"]');
  return row === null ? null : Number(row.dataset.id);
}
