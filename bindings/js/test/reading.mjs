// What is read and refused: values worked out by hand, and those of the tables of docs/.
import assert from "node:assert/strict";
import { readFileSync } from "node:fs";
import { test } from "node:test";
import { inspect } from "node:util";
import { runInNewContext } from "node:vm";
import { canonical, check, load, parse, Parsed, RegExpRefused } from "titaniumbat";
import { Reader } from "../reader.js";

const document = (name) => readFileSync(new URL(`../../../docs/${name}`, import.meta.url), "utf8");

/** The rows of the table of a document with this head, as lists of cells. */
function table(name, head) {
  const rows = document(name).split(`\n| ${head} |\n`)[1].split("\n").slice(1);
  const end = rows.findIndex((row) => !row.startsWith("|"));
  return rows.slice(0, end).map((row) => row.split(/(?<!\\)\|/).slice(1, -1).map((cell) => cell.trim().replaceAll("\\|", "|")));
}

/** The first piece of code in a cell. */
function code(cell) {
  const [, wide, narrow] = /``(.+?)``|`([^`]+)`/.exec(cell);
  return wide?.trim() ?? narrow;
}

function refusal(pattern, flags, options) {
  try {
    parse(pattern, flags, options);
  } catch (error) {
    assert.ok(error instanceof RegExpRefused && error instanceof SyntaxError, String(error));
    assert.deepEqual(check(pattern, flags, options).toJSON(), error.toJSON());
    return error;
  }
  return assert.fail(`${pattern} is read`);
}

const types = (pattern, flags) => [...parse(pattern, flags).nodes()].map((node) => node.type);
const spanOf = ({ start, end }) => [start, end];

test("mode and canonical spelling", () => {
  for (const [pattern, flags, mode, spelling] of [
    ["a", undefined, "legacy", "a"],
    ["a", "", "legacy", "a"],
    ["\\x41{1,}", "u", "unicode", "A+"],
    ["[\\p{L}--[a-z!\\q{ab}]]", "v", "sets", "[\\p{L}--[a-z\\!\\q{ab}]]"],
    ["(?<\\u0061>x)\\k<a>", "gu", "unicode", "(?<a>x)\\k<a>"],
    ["😀", "u", "unicode", "😀"],
    ["", "u", "unicode", "(?:)"],
  ]) {
    const it = parse(pattern, flags);
    assert.ok(it instanceof Parsed);
    assert.equal(it.mode, mode, pattern);
    assert.equal(check(pattern, flags), null);
    assert.equal(parse(it.spelling, flags).spelling, it.spelling);
    assert.equal(it.spelling, spelling, pattern);
    assert.equal(canonical(pattern, flags), spelling, pattern);
  }
});

test("the canonical spelling alone", () => {
  assert.equal(canonical('"(\\\\d{4,4})"', "'u'", { form: "constructor" }), "(\\d{4})");
  assert.equal(canonical("a{0,}", undefined, null), "a*");
  assert.throws(() => canonical("(?P<year>a)", "u"), { name: "RegExpRefused", code: "unknown_modifiers" });
  assert.throws(() => canonical(7), TypeError);
});

test("places are those of strings of JavaScript", () => {
  const pattern = "é😀(?<n>[a-b]+)";
  const it = parse(pattern, "u");
  const [group] = it.groups;
  assert.deepEqual(spanOf(group), [3, 15]);
  assert.equal(pattern.slice(group.start, group.end), "(?<n>[a-b]+)");
  assert.deepEqual(spanOf(parse(pattern, "u", { offset: 100 }).groups[0]), [103, 115]);
  assert.deepEqual(refusal("😀(?P<year>a)", "u").spans, [{ start: 4, end: 4 }]);
  assert.deepEqual(refusal("a", "gg", { flagsOffset: 7 }).spans, [{ start: 8, end: 9 }]);
  assert.deepEqual(spanOf(parse("", "u").root), [0, 4]);
});

test("groups and their names", () => {
  const it = parse("(?<year>\\d)|(a)|(?<year>b)(?:c)(?<month>d)", "u");
  assert.deepEqual(it.groups.map(({ number, name }) => [number, name]), [[1, "year"], [2, null], [3, "year"], [4, "month"]]);
  assert.deepEqual(it.names, ["year", "month"]);
  assert.equal(it.groups, it.groups);
  assert.deepEqual(parse("a").groups, []);
  assert.equal(parse("(?<𝒜>a)\\k<𝒜>", "u").groups[0].name, "𝒜");
});

test("the tree, node by node", () => {
  assert.deepEqual(types("a|(?:b)+"), ["Pattern", "Disjunction", "Alternative", "Character", "Alternative", "Quantifier", "IgnoreGroup", "Disjunction", "Alternative", "Character"]);
  const it = parse("(?i-s:a)(?!b){2,}?\\1", "");
  const [group, quantifier, reference] = it.root.body.body[0].body;
  assert.deepEqual(group.modifiers, { type: "Modifiers", start: 2, end: 5, enabling: "i", disabling: "s" });
  assert.deepEqual([quantifier.min, quantifier.max, quantifier.greedy, quantifier.body.kind], [2, null, false, "negativeLookahead"]);
  assert.deepEqual([reference.type, reference.value], ["Character", 1]);
  assert.equal(parse("(a)\\1", "u").root.body.body[0].body[1].index, 1);
  assert.equal(parse("a{9007199254740991}").root.body.body[0].body[0].max, Number.MAX_SAFE_INTEGER);
  const range = parse("[a-c]").root.body.body[0].body[0].body[0];
  assert.deepEqual([range.min.value, range.max.value, range.min.kind], [97, 99, "symbol"]);
  const [high, low] = parse("😀").root.body.body[0].body;
  assert.deepEqual([high.value, spanOf(high), low.value, spanOf(low)], [0xd83d, [0, 2], 0xde00, [2, 2]]);
});

test("ids, parents, children and descendants", () => {
  const it = parse("(a[b-c]|d)*", "v");
  const all = [...it.nodes()];
  assert.equal(all.length, it.count);
  assert.equal(it.root.parent, null);
  assert.deepEqual([...it.root.descendants()], all.slice(1));
  for (const [id, node] of all.entries()) {
    assert.equal(node.id, id);
    assert.equal(it.node(id), node);
    for (const child of node.children) assert.equal(child.parent, node);
    assert.ok(node.children.every((child) => child.start >= node.start && child.end <= node.end));
    assert.equal([...node.descendants()].length, node.children.reduce((sum, child) => sum + 1 + [...child.descendants()].length, 0));
  }
  for (const id of [-1, it.count, 0.5, "0", undefined]) assert.throws(() => it.node(id), RangeError);
});

test("refusals", () => {
  const unknown = refusal("(?P<year>a)", "u");
  assert.deepEqual(unknown.toJSON(), {
    name: "unknown_modifiers",
    kind: null,
    values: {},
    message: "Invalid regular expression: Unknown modifiers",
    field: "pattern",
    spans: [{ start: 2, end: 2 }],
    help: "named groups are written (?<a>b)",
  });
  assert.deepEqual([unknown.name, unknown.code, unknown.constructor], ["RegExpRefused", "unknown_modifiers", RegExpRefused]);
  const told = "RegExpRefused: Invalid regular expression: Unknown modifiers";
  assert.equal(String(unknown), told);
  assert.equal(unknown.stack.split("\n")[0], told);
  assert.deepEqual(Object.keys(unknown), ["code", "kind", "values", "field", "spans", "help"]);
  const twice = refusal("(?<a>x)(?<a>y)");
  assert.deepEqual([twice.code, twice.spans], ["duplicated_capturing_group_names", [{ start: 3, end: 4 }, { start: 10, end: 11 }]]);
  assert.deepEqual(refusal("(?<b>)(?<a>)\\k<c>").values, { names: ["b", "a"] });
  assert.deepEqual(refusal("(a)\\2", "u").values, { max: 1 });
  assert.deepEqual(refusal("\\p{RGI_Emoji}", "u").values, { name: "RGI_Emoji" });
  assert.deepEqual([refusal("a", "é").values, refusal("a", "é").field], [{ flag: "é" }, "flags"]);
  assert.deepEqual(refusal('"a"', '"\\ud800"', { form: "constructor" }).values, { flag: "\\u{D800}" });
  assert.equal(refusal("(").kind, "capturing_group");
});

test("options", () => {
  const constructor = { form: "constructor" };
  assert.equal(parse('"\\\\d+"', "'u'", constructor).spelling, "\\d+");
  assert.deepEqual(spanOf(parse('"(a)"', undefined, constructor).groups[0]), [1, 4]);
  assert.deepEqual([refusal('"a"', "u", constructor).code, refusal('"a"', "u", constructor).field], ["invalid_input", "flags"]);
  assert.equal(refusal('"a"', "", constructor).field, "flags");
  assert.equal(refusal("`\\1`", null, { form: "constructor", standardStrings: true }).code, "invalid_input");
  assert.equal(check("(?<a>x)|(?<a>y)"), null);
  assert.equal(refusal("(?<a>x)|(?<a>y)", null, { duplicateNames: false }).code, "duplicated_capturing_group_names");
  assert.equal(parse("\\A", "u").root.body.body[0].body[0].kind, "startBuffer");
  assert.equal(refusal("\\A", "u", { bufferBoundaries: false }).code, "parse_pattern_incomplete");
  assert.equal(check("a", "u", null), null);
});

test("what is no argument is named", () => {
  for (const pattern of [undefined, null, 7, /a/, ["a"], new String("a")]) assert.throws(() => parse(pattern), { name: "TypeError", message: "the pattern is not a string" });
  assert.throws(() => check("a", 7), { name: "TypeError", message: "the text of the flags is not a string" });
  assert.throws(() => parse("ab\ud800c"), { name: "TypeError", message: "the pattern has a surrogate that stands alone, at 2: write it as an escape, as in \\ud800" });
  assert.throws(() => parse("\ude00\ud83d"), /at 0/);
  assert.throws(() => check("a", "g\udfff"), { name: "TypeError", message: "the text of the flags has a surrogate that stands alone, at 1" });
  for (const options of [7, "u", [], ["u"], () => {}, new Map([["form", "literal"]]), /u/, Object.create({ form: "literal" })]) {
    assert.throws(() => parse("a", "", options), { name: "TypeError", message: "the options are not a plain object" });
  }
  for (const options of [Object.assign(Object.create(null), { offset: 1 }), runInNewContext("({ offset: 1 })")]) assert.equal(parse("a", "", options).root.start, 1);
  for (const options of [{ flags: "u" }, { form: "L" }, { duplicateNames: 0 }, { standardStrings: "true" }]) assert.throws(() => parse("a", "", options), TypeError);
  assert.throws(() => parse("a", "", { offest: 1 }), { name: "TypeError", message: "unknown option `offest`" });
  for (const offset of [-1, 0.5, 2 ** 32, "1", NaN, 1n]) assert.throws(() => parse("a", "", { offset }), /`offset` is not a whole number below 4294967296/);
  assert.throws(() => parse("a", "", { offset: 2 ** 32 - 4 }), { name: "RangeError", message: /too large/ });
  assert.equal(check("a", "", { offset: 2 ** 32 - 5 }), null);
  assert.throws(() => check("a", "g", { flagsOffset: 2 ** 32 - 1 }), RangeError);
});

test("load gives the other functions", async () => {
  assert.deepEqual(await load(), { parse, check, canonical });
});

test("in a browser, load comes first", async () => {
  const browser = await import("../browser.js");
  assert.throws(() => browser.parse("a"), /call `await load\(\)` first/);
  const bytes = readFileSync(new URL("../titaniumbat.wasm", import.meta.url));
  for (const source of [bytes, new WebAssembly.Module(bytes), `data:application/wasm;base64,${bytes.toString("base64")}`]) {
    const given = await browser.load(source);
    assert.equal(given.parse("(a)", "u").groups.length, 1);
    assert.deepEqual([given.canonical("a{1,}"), browser.canonical("a{0,}")], ["a+", "a*"]);
    assert.equal(browser.check("(").code, "unterminated_pattern");
  }
  await assert.rejects(browser.load("data:application/wasm,x"), WebAssembly.CompileError);
});

test("a module of another version is not used", () => {
  const told = { name: "Error", message: "titaniumbat.wasm has the version 2 of its interface: this package needs 1" };
  assert.throws(() => new Reader({ exports: { tb_version: () => 2 } }), told);
});

test("the fields of a node are not its own", () => {
  const { root } = parse("a");
  assert.deepEqual({ ...root }, {});
  assert.equal(root.toJSON().type, "Pattern");
});

test("node shows a node with its fields", () => {
  const [quantifier] = parse("[a-c]{2,}?").root.body.body[0].body;
  assert.equal(inspect(quantifier), "{\n  type: 'Quantifier',\n  start: 0,\n  end: 10,\n  min: 2,\n  max: null,\n  greedy: false,\n  body: '[CharacterClass]'\n}");
});

test("the table of nodes of docs/JSON.md", () => {
  const rows = table("JSON.md", "`type` | fields | of | example, without its place");
  assert.equal(rows.length, 19);
  const outline = (node) => {
    const { start, end, ...fields } = node;
    const short = Object.entries(fields).map(([name, value]) => [name, Array.isArray(value) ? [] : typeof value === "object" && value ? {} : value]);
    return JSON.stringify(Object.fromEntries(short)).replaceAll("{}", "{..}").replaceAll("[]", "[..]");
  };
  for (const row of rows) {
    const [, pattern, flags] = /^\/(.*)\/(\w*)$/.exec(code(row[2]));
    const nodes = [...parse(pattern, flags).nodes()].flatMap((node) => [node.toJSON(), ...(node.modifiers ? [node.modifiers] : [])]);
    assert.ok(nodes.map(outline).includes(code(row[3])), row.join(" "));
  }
});

test("the tables of refusals and of helps of docs/REFUSALS.md", () => {
  const forms = { L: "literal", C: "constructor" };
  const asked = (form, flags, pattern) => refusal(code(pattern), flags === "none" ? null : code(flags), { form: forms[form] });
  const rows = table("REFUSALS.md", "name | message | reply | form | flags | pattern | spans | the span covers | section").filter((row) => row[2] === "`err`");
  for (const [name, message, , form, flags, pattern] of rows) {
    const found = asked(form, flags, pattern);
    assert.deepEqual([found.code, found.message], [code(name), `Invalid regular expression: ${message}`], pattern);
  }
  const helps = table("REFUSALS.md", "name | what stands there | form | flags | pattern | help");
  for (const [name, , form, flags, pattern, help] of helps) {
    const found = asked(form, flags, pattern);
    assert.deepEqual([found.code, found.help], [code(name), code(help)], pattern);
  }
  assert.ok(rows.length >= 35 && helps.length >= 40);
});
