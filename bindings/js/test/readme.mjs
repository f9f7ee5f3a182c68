// Each example of README.md writes what stands after it.
import assert from "node:assert/strict";
import { execFileSync } from "node:child_process";
import { readFileSync } from "node:fs";
import { test } from "node:test";
import { fileURLToPath } from "node:url";

const folder = fileURLToPath(new URL("..", import.meta.url));
const EXAMPLE = /^```js\n(.*?)^```\n\n```text\n(.*?)^```/gms;

test("the examples of README.md", () => {
  const text = readFileSync(new URL("../README.md", import.meta.url), "utf8");
  const examples = [...text.matchAll(EXAMPLE)];
  assert.equal(examples.length, text.split("```js").length - 1);
  for (const [, code, output] of examples) {
    assert.equal(execFileSync(process.execPath, ["--input-type=module"], { input: code, cwd: folder, encoding: "utf8" }), output);
  }
});
