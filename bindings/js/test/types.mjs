// index.d.ts has the names that the code has, and those of docs/json.d.ts.
import assert from "node:assert/strict";
import { readFileSync } from "node:fs";
import { test } from "node:test";
import * as node from "titaniumbat";
import * as browser from "../browser.js";

const text = (path) => readFileSync(new URL(path, import.meta.url), "utf8");
const types = text("../index.d.ts");
const INTERFACE = /^export (?:interface|class) (\w+)(?: extends (\w+))? \{\n(.*?)^\}/gms;
const FIELD = /^  (?:readonly )?(\w+)\??[:(]/gm;
const UNION = /^export type (\w+) =\s*([^;]*);/gm;

/** The interfaces and classes of a file with types, each with its fields. */
const interfaces = (file) => new Map([...file.matchAll(INTERFACE)].map(([, name, , body]) => [name, [...body.matchAll(FIELD)].map((found) => found[1])]));
const unions = (file) => new Map([...file.matchAll(UNION)].map(([, name, body]) => [name, body.split("|").map((part) => part.trim()).filter(Boolean)]));
const own = interfaces(types);
const base = new Set(own.get("Base"));

/** The names that an object has, and that classes above it have. */
function namesOf(value) {
  const names = new Set();
  for (let at = value; at !== null && at !== Object.prototype && at !== SyntaxError.prototype; at = Object.getPrototypeOf(at)) {
    for (const name of Object.getOwnPropertyNames(at)) names.add(name);
  }
  for (const name of ["constructor", "stack", "message"]) names.delete(name);
  return [...names].sort();
}

test("what is exported", () => {
  const told = [...types.matchAll(/^export (?:function|class) (\w+)/gm)].map((found) => found[1]).sort();
  assert.deepEqual(Object.keys(node).sort(), told);
  assert.deepEqual(Object.keys(browser).sort(), told);
});

test("the fields of Parsed, RegExpRefused and Options", () => {
  assert.deepEqual(namesOf(node.parse("a")), [...own.get("Parsed")].sort());
  assert.deepEqual(namesOf(node.check("(")), [...own.get("RegExpRefused")].sort());
  const given = { form: "literal", offset: 1, flagsOffset: 1, duplicateNames: true, bufferBoundaries: true, standardStrings: false };
  assert.deepEqual(own.get("Options"), Object.keys(given));
  assert.equal(node.check("a", "", given), null);
});

test("the fields of nodes", () => {
  const patterns = [["(?<=a)^(?<n>b)+(?i:.)\\d\\p{L}[a-b]\\1\\k<n>", "u"], ["[\\q{a|b}]", "v"]];
  const seen = new Map(patterns.flatMap(([pattern, flags]) => [...node.parse(pattern, flags).nodes()]).map((it) => [it.type, it]));
  const nodes = [...types.matchAll(/^export interface (\w+) extends Base/gm)].map((found) => found[1]);
  assert.deepEqual([...seen.keys()].sort(), nodes.sort());
  for (const [type, it] of seen) assert.deepEqual(namesOf(it), [...new Set([...base, ...own.get(type)])].sort(), type);
});

test("the same names as in docs/json.d.ts", () => {
  const json = text("../../../docs/json.d.ts");
  const others = interfaces(json);
  for (const [name, fields] of own) {
    if (!others.has(name)) continue;
    assert.deepEqual(fields.filter((field) => field !== "number"), others.get(name), name);
    others.delete(name);
  }
  assert.deepEqual([...others.keys()], ["Request", "Ok", "Refused", "Bad", "Place", "Group"]);
  const found = unions(types);
  for (const [name, parts] of unions(json)) {
    if (found.has(name)) assert.deepEqual(found.get(name), parts, name);
  }
  assert.deepEqual(["Kind", "Term", "ClassItem"].filter((name) => !found.has(name)), []);
});

test("package.json names each file that is imported, and no other", () => {
  const { files, exports, types } = JSON.parse(text("../package.json"));
  const needed = new Set([types, ...Object.values(exports["."])].map((path) => path.slice(2)));
  for (const file of needed) {
    for (const [, other] of text(`../${file}`).matchAll(/ from "\.\/([^"]+)"/g)) needed.add(other);
  }
  assert.deepEqual(files, [...needed, "titaniumbat.wasm"].sort());
});
