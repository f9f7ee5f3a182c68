// The options of a call, and how tb_options holds them.
export const OPTIONS_SIZE = 20;

const FORMS = ["literal", "constructor"];
const OFFSETS = { offset: 4, flagsOffset: 8 };
const HAS_FLAGS = 12;
const SWITCHES = { duplicateNames: 13, bufferBoundaries: 14, standardStrings: 15 };
const UTF16 = 16;
const NODES = 17;
const SPELLING = 18;

// What stands there by default.
const USUAL = new Uint8Array(OPTIONS_SIZE);
for (const at of [SWITCHES.duplicateNames, SWITCHES.bufferBoundaries, UTF16]) USUAL[at] = 1;

/** The bytes of tb_options. `wanted` says whether nodes are, and the spelling. */
export function encodeOptions(options, hasFlags, wanted) {
  const bytes = USUAL.slice();
  bytes[HAS_FLAGS] = Number(hasFlags);
  bytes[NODES] = Number(wanted.nodes);
  bytes[SPELLING] = Number(wanted.spelling);
  if (options === undefined || options === null) return bytes;
  if (!isPlain(options)) throw new TypeError("the options are not a plain object");
  const view = new DataView(bytes.buffer);
  for (const [name, value] of Object.entries(options)) {
    if (value !== undefined) setOption(view, name, value);
  }
  return bytes;
}

/** Whether a value is an object as `{..}` makes it, in any realm, or one without a prototype: then all its fields are its own. */
function isPlain(value) {
  if (typeof value !== "object") return false;
  const prototype = Object.getPrototypeOf(value);
  return prototype === null || Object.getPrototypeOf(prototype) === null;
}

function setOption(view, name, value) {
  if (name === "form") view.setUint32(0, formOf(value), true);
  else if (Object.hasOwn(OFFSETS, name)) view.setUint32(OFFSETS[name], offsetOf(name, value), true);
  else if (Object.hasOwn(SWITCHES, name)) view.setUint8(SWITCHES[name], switchOf(name, value));
  else throw new TypeError(`unknown option \`${name}\``);
}

function formOf(form) {
  const number = FORMS.indexOf(form);
  if (number < 0) throw new TypeError('option `form` is not "literal" or "constructor"');
  return number;
}

function offsetOf(name, offset) {
  if (!Number.isInteger(offset) || offset < 0 || offset >= 2 ** 32) throw new RangeError(`option \`${name}\` is not a whole number below 4294967296`);
  return offset;
}

function switchOf(name, value) {
  if (typeof value !== "boolean") throw new TypeError(`option \`${name}\` is not true or false`);
  return Number(value);
}
