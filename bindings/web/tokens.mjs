// Compares the tokens that the page paints with those of the program's command `paint` (docs/PAINT.md): lines that were asked, and the replies.
//
//     node tokens.mjs LINES REPLIES
import { readFileSync } from "node:fs";
import { parse } from "../js/index.js";
import { tokensOf } from "./paint.js";

const linesOf = (path) => readFileSync(path, "utf8").split("\n").slice(0, -1);

/** The tokens of a line as the program writes them. */
function painted(line) {
  const [, flags, ...rest] = line.split("\t");
  const pattern = rest.join("\t");
  const text = pattern === "" ? "(?:)" : pattern;
  const bytes = (place) => Buffer.byteLength(text.slice(0, place));
  return tokensOf(parse(pattern, flags)).map(({ start, end, kind }) => `${bytes(start)}..${bytes(end)}=${kind}`).join(" ");
}

const [lines, replies] = process.argv.slice(2).map(linesOf);
const pairs = lines.map((line, at) => [line, replies[at]]).filter(([, reply]) => reply?.startsWith("ok\t"));
const wrong = pairs.filter(([line, reply]) => painted(line) !== reply.slice(3));
for (const [line, reply] of wrong.slice(0, 20)) console.log(`tokens: ${line}: ${painted(line)}, not ${reply.slice(3)}`);
console.log(`tokens: ${pairs.length} patterns painted, ${wrong.length} wrong`);
process.exitCode = wrong.length > 0 || pairs.length === 0 || lines.length !== replies.length ? 1 : 0;
