// Calls the module. bindings/c/include/titaniumbat.h says what stands where in tb_reading and tb_refusal. In the module too pointers and sizes take 8 bytes each there;
// their lower 4 are read.
import { Memory } from "./memory.js";
import { encodeOptions, OPTIONS_SIZE } from "./options.js";
import { Parsed } from "./parsed.js";
import { RegExpRefused, valuesOf } from "./refusal.js";

const VERSION = 1; // TB_VERSION of that header

const OK = 0;
const REFUSED = 1;
const OUT_OF_MEMORY = 2;
const MODES = ["legacy", "unicode", "sets"];
const FIELDS = ["pattern", "flags"];

const READING_SIZE = 184;
const MODE = 0;
// The slices of a reading, a pointer and a count each. Of the refusal those that end with NUL, which their counts count.
const SLICES = { nodes: 8, groups: 24, texts: 40, spelling: 56, name: 72, kind: 88, message: 104, help: 120, values: 136 };
const SIZES = { nodes: 72, groups: 4, texts: 1, values: 8 };
const FIELD = 152;
const SPAN_COUNT = 156;
const MAX = 160;
const SPANS = 168;

/** Reads patterns by an instance of the module. */
export class Reader {
  #memory;
  #exports;
  #options;
  #out;

  constructor(instance) {
    const version = instance.exports.tb_version?.();
    if (version !== VERSION) throw new Error(`titaniumbat.wasm has the version ${version} of its interface: this package needs ${VERSION}`);
    this.#exports = instance.exports;
    this.#memory = new Memory(instance.exports);
    this.#options = this.#memory.take(OPTIONS_SIZE);
    this.#out = this.#memory.take(READING_SIZE);
  }

  /** The pattern that is read. A refusal is thrown. */
  parse(pattern, flags, options) {
    return unlessRefused(this.#read(pattern, flags, options, { nodes: true, spelling: true }, () => this.#parsed()));
  }

  /** The canonical spelling. A refusal is thrown. */
  canonical(pattern, flags, options) {
    return unlessRefused(this.#read(pattern, flags, options, { nodes: false, spelling: true }, () => this.#text("spelling")));
  }

  /** The refusal, or null where the pattern is read. */
  check(pattern, flags, options) {
    return this.#read(pattern, flags, options, { nodes: false, spelling: false }, () => null);
  }

  /** What is wanted of a pattern, which `answer` takes from the reading, or its refusal. */
  #read(pattern, flags, options, wanted, answer) {
    const hasFlags = flags !== undefined && flags !== null;
    checkText("the pattern", pattern, ": write it as an escape, as in \\ud800");
    if (hasFlags) checkText("the text of the flags", flags, "");
    const asked = encodeOptions(options, hasFlags, wanted);
    const status = this.#call(pattern, flags ?? "", asked);
    try {
      if (status === OK) return answer();
      if (status === REFUSED) return this.#refusal();
    } finally {
      this.#exports.tb_free(this.#out);
    }
    throw new RangeError(status === OUT_OF_MEMORY ? "out of memory" : "option `offset` or `flagsOffset` is too large: a place would not fit 32 bits");
  }

  #call(pattern, flags, options) {
    const rooms = [pattern, flags].map((text) => 3 * text.length + 1);
    const at = this.#memory.take(rooms[0] + rooms[1]);
    try {
      const size = this.#memory.putText(pattern, at, rooms[0]);
      const flagsSize = this.#memory.putText(flags, at + rooms[0], rooms[1]);
      this.#memory.bytes(this.#options, OPTIONS_SIZE).set(options);
      return this.#exports.tb_read(at, size, at + rooms[0], flagsSize, this.#options, this.#out);
    } finally {
      this.#memory.giveBack(at);
    }
  }

  #parsed() {
    return new Parsed({
      mode: MODES[this.#word(MODE)],
      spelling: this.#text("spelling"),
      nodes: this.#copy("nodes"),
      groups: new Uint32Array(this.#copy("groups")),
      texts: new Uint8Array(this.#copy("texts")),
    });
  }

  #refusal() {
    const code = this.#text("name");
    const ranges = new Uint32Array(this.#copy("values"));
    const { at } = this.#slice("texts");
    const texts = Array.from({ length: ranges.length / 2 }, (_, of) => this.#memory.text(at + ranges[2 * of], ranges[2 * of + 1] - ranges[2 * of]));
    return new RegExpRefused({
      code,
      kind: this.#text("kind"),
      values: valuesOf(code, texts, this.#word(MAX)),
      message: this.#text("message"),
      field: FIELDS[this.#word(FIELD)],
      spans: Array.from({ length: this.#word(SPAN_COUNT) }, (_, of) => this.#span(SPANS + 8 * of)),
      help: this.#text("help"),
    });
  }

  #word(at) {
    return this.#memory.word(this.#out + at);
  }

  #span(at) {
    return { start: this.#word(at), end: this.#word(at + 4) };
  }

  #slice(name) {
    return { at: this.#word(SLICES[name]), count: this.#word(SLICES[name] + 8) };
  }

  /** A text without the NUL at its end; null where there is none. */
  #text(name) {
    const { at, count } = this.#slice(name);
    return count === 0 ? null : this.#memory.text(at, count - 1);
  }

  #copy(name) {
    const { at, count } = this.#slice(name);
    return this.#memory.bytes(at, count * SIZES[name]).slice().buffer;
  }
}

function unlessRefused(it) {
  if (it instanceof RegExpRefused) throw it;
  return it;
}

/** `advice`: what to do about a surrogate that stands alone. */
function checkText(what, text, advice) {
  if (typeof text !== "string") throw new TypeError(`${what} is not a string`);
  const at = text.search(/\p{Surrogate}/u);
  if (at >= 0) throw new TypeError(`${what} has a surrogate that stands alone, at ${at}${advice}`);
}
