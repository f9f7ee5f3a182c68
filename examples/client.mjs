// Asks one program many times: for the groups of a pattern, and why another is refused. An argument is the program to ask in place of ./regexp.
import { spawn } from "node:child_process";

const program = spawn(process.argv[2] ?? "./regexp", ["json"], { stdio: ["pipe", "pipe", "inherit"] });
const waiting = [];
let rest = "";

// Each line is a reply, in the order of the requests.
program.stdout.setEncoding("utf8").on("data", (text) => {
  const lines = (rest + text).split("\n");
  rest = lines.pop();
  for (const line of lines) waiting.shift()(JSON.parse(line));
});

function ask(request) {
  program.stdin.write(JSON.stringify(request) + "\n");
  return new Promise((resolve) => waiting.push(resolve));
}

// How many columns a terminal needs, nearly.
const width = (text) => [...text].reduce((sum, c) => sum + (/\p{Emoji_Presentation}|\p{Script=Han}/u.test(c) ? 2 : 1), 0);

async function show(pattern, flags) {
  const reply = await ask({ pattern, flags });
  for (const { number, name, start16, end16 } of reply.groups ?? []) {
    console.log(`group ${number}, ${name ?? "no name"}, ${start16}..${end16}: ${pattern.slice(start16, end16)}`);
  }
  if (reply.status === "refused" && reply.field === "pattern") {
    const before = pattern.slice(0, reply.spans[0].start16); // places as strings of JavaScript count
    console.log(`${pattern}\n${" ".repeat(width(before))}^ ${reply.message}\n${reply.help ?? ""}`);
  }
}

await show("😀(?<year>\\d{4})-(\\d\\d)", "u");
await show("😀(?P<year>\\d{4})", "u");
program.stdin.end();
