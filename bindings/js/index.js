// For node: the module is read from the file beside this one, so that all calls can be made at once.
import { readFileSync } from "node:fs";
import { Reader } from "./reader.js";

const module = new WebAssembly.Module(bytesOf(new URL("titaniumbat.wasm", import.meta.url)));
const reader = new Reader(new WebAssembly.Instance(module));

export { Parsed } from "./parsed.js";
export { RegExpRefused } from "./refusal.js";

export const parse = (pattern, flags, options) => reader.parse(pattern, flags, options);
export const check = (pattern, flags, options) => reader.check(pattern, flags, options);
export const canonical = (pattern, flags, options) => reader.canonical(pattern, flags, options);
export const load = async () => ({ parse, check, canonical });

function bytesOf(file) {
  try {
    return readFileSync(file);
  } catch (cause) {
    throw new Error(`${file} cannot be read: in the repository, tools/archive.py wasm makes it`, { cause });
  }
}
