const encoder = new TextEncoder();
const decoder = new TextDecoder("utf-8", { ignoreBOM: true });

/** The memory of an instance of the module. Views are made anew each time, since a memory that grows leaves the old ones empty. */
export class Memory {
  #exports;

  constructor(exports) {
    this.#exports = exports;
  }

  /** A block of the module's heap. */
  take(size) {
    const at = this.#exports.tb_alloc(size) >>> 0;
    if (at === 0) throw new RangeError("out of memory");
    return at;
  }

  giveBack(at) {
    this.#exports.tb_dealloc(at);
  }

  bytes(at, size) {
    return new Uint8Array(this.#exports.memory.buffer, at, size);
  }

  word(at) {
    return new DataView(this.#exports.memory.buffer).getUint32(at, true);
  }

  text(at, size) {
    return decoder.decode(this.bytes(at, size));
  }

  /** Writes a text as UTF-8, for which there is room, and says how many bytes it takes. */
  putText(text, at, room) {
    return encoder.encodeInto(text, this.bytes(at, room)).written;
  }
}
