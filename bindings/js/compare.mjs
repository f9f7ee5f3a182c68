// Compares what this package answers with replies of the program to the same requests (docs/JSON.md), a line each: the tree, the groups, mode and spelling, or the refusal.
//
//     node compare.mjs REQUESTS REPLIES
import { readFileSync } from "node:fs";
import { canonical, check, parse, RegExpRefused } from "titaniumbat";

const BYTES = new Set(["start", "end"]);
const RENAMED = { start16: "start", end16: "end" };
const OPTIONS = ["form", "offset", "flagsOffset", "duplicateNames", "bufferBoundaries", "standardStrings"];

/** What the package answers to a request of the program, as such a reply without places in bytes. */
function answer({ id = null, pattern, flags, ...others }) {
  const options = Object.fromEntries(OPTIONS.filter((name) => name in others).map((name) => [name, others[name]]));
  const refusal = check(pattern, flags, options);
  try {
    const it = { id, status: "ok", ...parse(pattern, flags, options).toJSON() };
    if (canonical(pattern, flags, options) !== it.spelling) return { id, status: "canonical spells it otherwise" };
    return refusal === null ? it : { id, status: "check refuses it" };
  } catch (error) {
    if (!(error instanceof RegExpRefused)) throw error;
    return refusal === null ? { id, status: "check does not refuse it" } : { id, status: "refused", ...error.toJSON() };
  }
}

/** Whether an answer is a reply, but for its places in bytes. A list in place of calls, since trees may be deep. */
function isReply(found, reply) {
  const left = [[found, reply]];
  while (left.length > 0) {
    const [one, other] = left.pop();
    if (one === other) continue;
    if (typeof one !== "object" || typeof other !== "object" || one === null || other === null || Array.isArray(one) !== Array.isArray(other)) return false;
    const fields = Object.keys(other).filter((field) => !("start16" in other && BYTES.has(field)));
    if (Object.keys(one).length !== fields.length) return false;
    for (const field of fields) left.push([one[RENAMED[field] ?? field], other[field]]);
  }
  return true;
}

const linesOf = (path) => readFileSync(path, "utf8").split("\n").slice(0, -1);
const [requests, replies] = process.argv.slice(2).map(linesOf);
const wrong = requests.filter((line, at) => at >= replies.length || !isReply(answer(JSON.parse(line)), JSON.parse(replies[at])));
for (const line of wrong.slice(0, 20)) console.log(`compare: ${line.slice(0, 300)}`);
console.log(`compare: ${requests.length} answers, ${wrong.length} wrong`);
process.exitCode = wrong.length > 0 || requests.length !== replies.length || requests.length === 0 ? 1 : 0;
