// Deep and long patterns, and the memory of the module.
import assert from "node:assert/strict";
import { readFileSync } from "node:fs";
import { test } from "node:test";
import { parse, RegExpRefused } from "titaniumbat";
import { Reader } from "../reader.js";

const module = new WebAssembly.Module(readFileSync(new URL("../titaniumbat.wasm", import.meta.url)));
const DEPTH = 200000;

test("a pattern of 200,000 brackets", () => {
  const it = parse("(".repeat(DEPTH) + ")".repeat(DEPTH));
  assert.equal(it.groups.length, DEPTH);
  assert.equal(it.count, 3 * DEPTH + 3);
  assert.equal(it.groups.at(-1).number, DEPTH);
  assert.equal(it.node(it.count - 1).parent.parent.type, "CapturingGroup");
  let depth = 0;
  for (let node = it.root.toJSON().body; node !== undefined; node = node.body[0]?.body[0]?.body) depth++;
  assert.equal(depth, DEPTH + 1);
  assert.equal(parse("[".repeat(DEPTH) + "]".repeat(DEPTH), "v").count, DEPTH + 3);
  assert.throws(() => parse("(".repeat(DEPTH)), RegExpRefused);
});

test("a million characters", () => {
  assert.equal(parse("é".repeat(1000000), "u").count, 1000003);
});

test("the memory of the module does not grow", () => {
  const instance = new WebAssembly.Instance(module);
  const reader = new Reader(instance);
  const read = () => {
    reader.parse("(?<year>\\d{4})-(?<month>\\d\\d)|\\p{Script=Greek}[a-z]", "u");
    reader.check("(?P<a>b)\\k<c>", "u");
    reader.check("(?<a>)(?<b>)\\k<c>", "u");
    assert.throws(() => reader.check("a", "", { offset: 4294967295 }), RangeError);
    reader.check("a", "gg");
  };
  for (let round = 0; round < 100; round++) read();
  const size = instance.exports.memory.buffer.byteLength;
  for (let round = 0; round < 20000; round++) read();
  assert.equal(instance.exports.memory.buffer.byteLength, size);
  parseAll(reader, "(".repeat(20000) + ")".repeat(20000), 3);
  const larger = instance.exports.memory.buffer.byteLength;
  parseAll(reader, "(".repeat(20000) + ")".repeat(20000), 20);
  assert.equal(instance.exports.memory.buffer.byteLength, larger);
});

function parseAll(reader, pattern, rounds) {
  for (let round = 0; round < rounds; round++) reader.parse(pattern);
}

test("what was read stays when the memory grows", () => {
  const reader = new Reader(new WebAssembly.Instance(module));
  const it = reader.parse("(?<name>a)", "u");
  reader.parse("a".repeat(2000000));
  assert.equal(it.groups[0].name, "name");
  assert.equal(it.spelling, "(?<name>a)");
});

test("no memory is a RangeError", () => {
  const { exports } = new WebAssembly.Instance(module);
  const reader = new Reader({ exports: { ...exports, tb_read: () => 2 } });
  assert.throws(() => reader.parse("a"), { name: "RangeError", message: "out of memory" });
  assert.throws(() => new Reader({ exports: { ...exports, tb_alloc: () => 0 } }), { name: "RangeError", message: "out of memory" });
});
