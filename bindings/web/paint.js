// The pattern in colours: its tokens, as docs/PAINT.md has them, and the layer under the field that shows them.

const KINDS = {
  Pattern: "other",
  Disjunction: "bar",
  Alternative: "other",
  LookAroundAssertion: "group",
  Quantifier: "quantifier",
  CapturingGroup: "group",
  IgnoreGroup: "group",
  BoundaryAssertion: "assert",
  Dot: "dot",
  CharacterClassEscape: "set",
  UnicodePropertyEscape: "set",
  CharacterClass: "class",
  CharacterClassRange: "class",
  ClassStringDisjunction: "class",
  ClassString: "class",
  IndexedReference: "reference",
  NamedReference: "reference",
};

const kindOf = (node) => (node.type === "Character" ? (node.kind === "symbol" ? "char" : "escape") : KINDS[node.type]);

/** The tokens of a tree: the longest runs of neighbouring places with one owner, the deepest node that holds them. */
export function tokensOf(parsed) {
  const tokens = [];
  const open = [];
  let at = parsed.root.start;
  // From where the last token ends to this place the owner is the innermost node that is open.
  const fill = (end) => {
    const owner = open.at(-1);
    const last = tokens.at(-1);
    if (end <= at) return;
    if (last?.owner === owner) last.end = end;
    else tokens.push({ start: at, end, kind: kindOf(owner), owner });
    at = end;
  };
  const leave = () => {
    fill(open.at(-1).end);
    open.pop();
  };
  for (const node of parsed.nodes()) {
    while (open.length > 0 && open.at(-1) !== node.parent) leave();
    if (open.length > 0) fill(node.start);
    open.push(node);
    if (node.type === "IgnoreGroup" && node.modifiers !== null) {
      const { start, end } = node.modifiers;
      fill(start);
      if (end > at) tokens.push({ start, end, kind: "modifier", owner: node.modifiers });
      at = end;
    }
  }
  while (open.length > 0) leave();
  return tokens;
}

/** The tokens of a text that is refused: what is wrong, and the rest. A place between two characters is a token without text. */
export function wrongTokens(text, spans) {
  const tokens = [];
  let at = 0;
  const plain = (end) => end > at && tokens.push({ start: at, end, kind: "char", owner: null });
  for (const { start, end } of spans) {
    plain(start);
    tokens.push({ start, end, kind: start === end ? "between" : "wrong", owner: null });
    at = end;
  }
  plain(text.length);
  return tokens;
}

/** The index of the token that holds a place, or of the last one. */
export function tokenAt(tokens, place) {
  let [low, high] = [0, tokens.length - 1];
  while (low < high) {
    const middle = (low + high) >> 1;
    if (tokens[middle].end > place) high = middle;
    else low = middle + 1;
  }
  return low;
}

const BLOCK = 400; // tokens that are painted together, when they come into sight

/** The layer that shows the text of the field in colours. */
export class Paint {
  #layer;
  #scroller;
  #blocks = [];
  #marked = null;
  #sight;

  constructor(layer, scroller) {
    this.#layer = layer;
    this.#scroller = scroller;
    this.#sight = new IntersectionObserver((seen) => this.#paintSeen(seen), { root: scroller, rootMargin: "300px" });
  }

  /** Shows a text, plain or with its tokens. */
  show(text, tokens = [{ start: 0, end: text.length, kind: "char" }]) {
    this.#sight.disconnect();
    this.#marked = null;
    this.#blocks = [];
    for (let from = 0; from < tokens.length; from += BLOCK) {
      const some = tokens.slice(from, from + BLOCK);
      const element = document.createElement("span");
      element.textContent = text.slice(some[0].start, some.at(-1).end);
      this.#blocks.push({ text, tokens: some, element, isPainted: false });
    }
    // A last line that is empty has its height by the last character, which has no width.
    this.#layer.replaceChildren(...this.#blocks.map((block) => block.element), "\u200b");
    if (this.#blocks.length <= 2) for (const block of this.#blocks) this.#paint(block);
    else for (const block of this.#blocks) this.#sight.observe(block.element);
  }

  /** Marks what stands between two places, or nothing. */
  mark(span) {
    this.#marked = span;
    for (const block of this.#blocks) if (block.isPainted) this.#markBlock(block);
  }

  /** Scrolls the field so that a place is in sight. */
  reveal(place) {
    const block = this.#blocks.find((one) => one.tokens.at(-1).end > place);
    if (block === undefined) return;
    this.#paint(block);
    const { offsetTop, offsetHeight } = block.element.children[block.tokens.findIndex((token) => token.end > place)];
    const { scrollTop, clientHeight } = this.#scroller;
    if (offsetTop < scrollTop || offsetTop + offsetHeight > scrollTop + clientHeight) this.#scroller.scrollTop = offsetTop - clientHeight / 3;
  }

  #paintSeen(seen) {
    for (const { target, isIntersecting } of seen) {
      if (isIntersecting) this.#paint(this.#blocks.find((block) => block.element === target));
    }
  }

  #paint(block) {
    if (block === undefined || block.isPainted) return;
    block.isPainted = true;
    block.element.replaceChildren(...block.tokens.map(({ start, end, kind }) => piece(block.text.slice(start, end), kind)));
    this.#sight.unobserve(block.element);
    this.#markBlock(block);
  }

  #markBlock({ tokens, element }) {
    const { start, end } = this.#marked ?? { start: 0, end: 0 };
    tokens.forEach((token, at) => element.children[at].classList.toggle("marked", token.start >= start && token.end <= end && token.end > token.start));
  }
}

/** A piece of text in the colour of its kind. */
export function piece(text, kind) {
  const element = document.createElement("span");
  element.className = kind;
  element.textContent = text;
  return element;
}
