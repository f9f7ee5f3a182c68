import { Records } from "./nodes.js";

/** A pattern that was read. */
export class Parsed {
  #records;
  #groups;
  #made = null;

  /** `told`: mode, spelling, and copies of what the module recorded: nodes, texts, and the ids of the groups. */
  constructor({ mode, spelling, nodes, texts, groups }) {
    this.mode = mode;
    this.spelling = spelling;
    this.#records = new Records(nodes, texts);
    this.#groups = groups;
  }

  get root() {
    return this.#records.node(0);
  }

  get count() {
    return this.#records.count;
  }

  node(id) {
    if (!Number.isInteger(id) || id < 0 || id >= this.count) throw new RangeError(`no node has the id ${String(id)}: there are ${this.count}`);
    return this.#records.node(id);
  }

  *nodes() {
    for (let id = 0; id < this.count; id++) yield this.#records.node(id);
  }

  get groups() {
    this.#made ??= Object.freeze(Array.from(this.#groups, (id) => this.#records.node(id)));
    return this.#made;
  }

  get names() {
    return [...new Set(this.groups.map((group) => group.name).filter((name) => name !== null))];
  }

  toJSON() {
    const groups = this.groups.map(({ number, name, start, end }) => ({ number, name, start, end }));
    return { mode: this.mode, spelling: this.spelling, groups, names: this.names, tree: this.root.toJSON() };
  }
}
