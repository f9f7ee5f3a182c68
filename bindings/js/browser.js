// For browsers: the module is fetched by `load`, and then the other calls can be made.
import { Reader } from "./reader.js";

let reader = null;

export { Parsed } from "./parsed.js";
export { RegExpRefused } from "./refusal.js";

export const parse = (pattern, flags, options) => loaded().parse(pattern, flags, options);
export const check = (pattern, flags, options) => loaded().check(pattern, flags, options);
export const canonical = (pattern, flags, options) => loaded().canonical(pattern, flags, options);

export async function load(source = new URL("titaniumbat.wasm", import.meta.url)) {
  reader = new Reader(await instantiate(source));
  return { parse, check, canonical };
}

function loaded() {
  if (reader === null) throw new Error("the module is not loaded: call `await load()` first");
  return reader;
}

async function instantiate(source) {
  if (source instanceof WebAssembly.Module) return WebAssembly.instantiate(source);
  const isBytes = source instanceof ArrayBuffer || ArrayBuffer.isView(source);
  return (await WebAssembly.instantiate(isBytes ? source : await fetchBytes(source))).instance;
}

async function fetchBytes(url) {
  const response = await fetch(url);
  if (!response.ok) throw new Error(`${url}: status ${response.status}`);
  return response.arrayBuffer();
}
