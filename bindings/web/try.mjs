// Tries the page in headless Chromium: typing, pointing, keys, refusals, links, colours, a narrow screen, a large pattern.
//
//     node try.mjs [--picture FILE]
//
// With --picture it writes the picture of the page that the documents show. The environment variable CHROMIUM names the program, else `chromium` is run.
import { spawn } from "node:child_process";
import { mkdtempSync, readFileSync, rmSync, writeFileSync } from "node:fs";
import { createServer } from "node:http";
import { tmpdir } from "node:os";
import { extname, join } from "node:path";
import { fileURLToPath } from "node:url";

const BINDINGS = fileURLToPath(new URL("..", import.meta.url));
const KINDS = { ".html": "text/html", ".css": "text/css", ".js": "text/javascript", ".wasm": "application/wasm" };
const CONTRAST = 4.5; // WCAG 2, level AA
const TYPED = 500;
const ANSWERED = 2500;
const WIDE = { width: 1280, height: 900 };
const NARROW = { width: 360, height: 740 };

/** A file server for the folder of bindings. Below `/bare/` stands the same folder without the module. */
async function serve() {
  const server = createServer((request, response) => {
    const { pathname } = new URL(request.url, "http://x");
    const path = join(BINDINGS, decodeURIComponent(pathname).replace(/^\/bare\//, "/").replace(/\/$/, "/index.html"));
    try {
      if (/^\/bare\/.*\.wasm$/.test(pathname)) throw new Error("not there");
      response.writeHead(200, { "content-type": KINDS[extname(path)] ?? "text/plain" }).end(readFileSync(path));
    } catch {
      response.writeHead(404).end();
    }
  });
  await new Promise((resolve) => server.listen(0, "127.0.0.1", resolve));
  return server;
}

/** Chromium, spoken to by its DevTools protocol over two pipes: each message is JSON, and ends with NUL. */
class Browser {
  #program;
  #profile = mkdtempSync(join(tmpdir(), "page-"));
  #waiting = new Map();
  #next = 1;
  #rest = "";
  #session;
  faults = [];

  constructor() {
    const words = ["--headless=new", "--remote-debugging-pipe", "--no-sandbox", "--disable-gpu", "--no-first-run", "--disable-extensions", `--user-data-dir=${this.#profile}`, "about:blank"];
    this.#program = spawn(process.env.CHROMIUM ?? "chromium", words, { stdio: ["ignore", "ignore", "ignore", "pipe", "pipe"] });
    this.#program.stdio[4].setEncoding("utf8").on("data", (text) => this.#take(text));
  }

  async open() {
    const { targetInfos } = await this.send("Target.getTargets");
    const { targetId } = targetInfos.find((target) => target.type === "page");
    this.#session = (await this.send("Target.attachToTarget", { targetId, flatten: true })).sessionId;
    for (const part of ["Page", "Runtime", "Log", "Network"]) await this.send(`${part}.enable`);
  }

  send(method, params = {}) {
    const id = this.#next++;
    this.#program.stdio[3].write(`${JSON.stringify({ id, method, params, sessionId: this.#session })}\0`);
    return new Promise((resolve, reject) => this.#waiting.set(id, { resolve, reject, method }));
  }

  async close() {
    await Promise.race([this.send("Browser.close").catch(() => {}), new Promise((resolve) => setTimeout(resolve, 3000))]);
    if (this.#program.exitCode === null) {
      const ended = new Promise((resolve) => this.#program.once("exit", resolve));
      this.#program.kill();
      await ended;
    }
    rmSync(this.#profile, { recursive: true, force: true, maxRetries: 5 });
  }

  #take(text) {
    const messages = (this.#rest + text).split("\0");
    this.#rest = messages.pop();
    for (const message of messages) this.#hear(JSON.parse(message));
  }

  #hear({ id, method, params, result, error }) {
    if (id !== undefined) {
      const waiting = this.#waiting.get(id);
      this.#waiting.delete(id);
      if (error) waiting.reject(new Error(`${waiting.method}: ${error.message}`));
      else waiting.resolve(result);
    } else if (method === "Runtime.exceptionThrown") this.faults.push(params.exceptionDetails.exception?.description ?? params.exceptionDetails.text);
    else if (method === "Runtime.consoleAPICalled" && params.type === "error") this.faults.push(params.args.map((it) => it.value).join(" "));
    else if (method === "Log.entryAdded" && params.entry.level === "error") this.faults.push(`${params.entry.text} ${params.entry.url ?? ""}`);
    else if (method === "Network.responseReceived" && params.response.status >= 400) this.faults.push(`${params.response.status} ${params.response.url}`);
  }
}

/** The page, as one who sees it and types. */
class Page {
  constructor(browser, address) {
    this.browser = browser;
    this.address = address;
  }

  async run(code) {
    const { result, exceptionDetails } = await this.browser.send("Runtime.evaluate", { expression: `(async () => { ${code} })()`, awaitPromise: true, returnByValue: true });
    if (exceptionDetails) throw new Error(exceptionDetails.exception?.description ?? exceptionDetails.text);
    return result.value;
  }

  /** Waits until code gives something true, and gives it back. */
  async until(code, most = 5000) {
    const end = performance.now() + most;
    for (;;) {
      const found = await this.run(`return ${code}`);
      if (found) return found;
      if (performance.now() > end) throw new Error(`it did not come: ${code}`);
      await new Promise((resolve) => setTimeout(resolve, 20));
    }
  }

  async open({ size = WIDE, isDark = false, hash = "" } = {}) {
    const isPhone = size === NARROW;
    await this.browser.send("Emulation.setDeviceMetricsOverride", { ...size, deviceScaleFactor: isPhone ? 2 : 1, mobile: isPhone });
    await this.browser.send("Emulation.setTouchEmulationEnabled", { enabled: isPhone });
    await this.browser.send("Emulation.setEmulatedMedia", { features: [{ name: "prefers-color-scheme", value: isDark ? "dark" : "light" }] });
    await this.browser.send("Page.navigate", { url: "about:blank" });
    await this.browser.send("Page.navigate", { url: this.address + hash });
    await this.until('document.readyState === "complete" && document.body.classList.contains("painted") && document.getElementById("said").textContent !== ""');
  }

  text(selector) {
    return this.run(`return document.querySelector(${JSON.stringify(selector)})?.innerText ?? null`);
  }

  /** Puts a text into a field as a paste does. */
  async fill(id, text) {
    await this.run(`const field = document.getElementById(${JSON.stringify(id)}); field.focus(); field.select();`);
    await this.browser.send("Input.insertText", { text });
    if (text === "") await this.key("Delete");
  }

  async key(key) {
    const code = key === " " ? "Space" : key;
    const numbers = { ArrowUp: 38, ArrowDown: 40, ArrowLeft: 37, ArrowRight: 39, Home: 36, End: 35, Enter: 13, " ": 32, Tab: 9, Delete: 46, PageDown: 34 };
    for (const type of ["rawKeyDown", "keyUp"]) await this.browser.send("Input.dispatchKeyEvent", { type, key, code, windowsVirtualKeyCode: numbers[key] });
  }

  async point(selector) {
    const [x, y] = await this.run(`const { left, top, width, height } = document.querySelector(${JSON.stringify(selector)}).getBoundingClientRect(); return [left + Math.min(width, 200) / 2, top + height / 2]`);
    await this.browser.send("Input.dispatchMouseEvent", { type: "mouseMoved", x, y });
    return [x, y];
  }

  async click(selector) {
    const [x, y] = await this.point(selector);
    for (const type of ["mousePressed", "mouseReleased"]) await this.browser.send("Input.dispatchMouseEvent", { type, x, y, button: "left", clickCount: 1 });
  }

  async picture() {
    return Buffer.from((await this.browser.send("Page.captureScreenshot", { format: "png" })).data, "base64");
  }
}

const wrong = [];
let tried = 0;

function expect(what, found, wanted) {
  tried++;
  if (JSON.stringify(found) !== JSON.stringify(wanted)) wrong.push(`${what}: ${JSON.stringify(found)}, not ${JSON.stringify(wanted)}`);
}

const linkOf = (pattern, flags, others = {}) => `#${new URLSearchParams({ pattern, flags, ...others })}`;
const marked = 'return [...document.querySelectorAll(".paint .marked")].map((it) => it.textContent).join("")';
const active = 'return document.querySelector(\'[aria-selected="true"]\')?.innerText.replaceAll("\\n", " ") ?? null';
const rows = 'return document.querySelectorAll("[role=treeitem]").length';
const painted = 'return [...document.querySelectorAll(".paint > span > span")].map((it) => `${it.className} ${it.textContent}`)';

async function tryTyping(page) {
  await page.open();
  await page.fill("pattern", "");
  expect("an empty pattern", await page.text("#spelling"), "(?:)");
  await page.browser.send("Input.insertText", { text: "(a" });
  expect("a group that is open", await page.text("#said"), "Unterminated capturing group");
  for (const text of ["|", "\\", "d", ")"]) await page.browser.send("Input.insertText", { text });
  await page.fill("flags", "u");
  expect("what is said", [await page.text("#said"), await page.text("#spelling")], ["Valid in unicode mode", "(a|\\d)"]);
  expect("colours", await page.run(painted), ["group (", "char a", "bar |", "set \\d", "group )"]);
  expect("groups", await page.text("#groups tbody"), "1\t–\t(a|\\d)");
  await page.fill("pattern", "[é😀]");
  await page.fill("flags", "v");
  expect("with v", [await page.text("#said"), await page.text("#spelling"), await page.text("#group-count")], ["Valid in sets mode", "[é😀]", ""]);
  await page.fill("flags", "");
  expect("without flags", await page.text("#said"), "Valid in legacy mode");
  await page.until('document.getElementById("live").textContent.startsWith("Valid in legacy mode")');
}

async function tryRefusals(page) {
  await page.open({ hash: linkOf("[a-z&&[aeiou]]", "v") });
  expect("the message", await page.text("#said"), "Unterminated character class");
  expect("the help", await page.text("#help"), "Help: a range must stand in brackets of its own beside &&, and so must more than one item");
  expect("the name", await page.text("#name"), "unterminated_pattern, character_class");
  expect("the line under it", await page.run('const it = document.querySelector(".paint .wrong"); return [it.textContent, getComputedStyle(it).textDecorationLine]'), ["[a-z", "underline"]);
  expect("no tree", await page.run('return document.getElementById("tree").hidden'), true);
  expect("the units of the place", (await page.text("#refused dl")).includes("0 to 4 of the pattern in UTF-16 code units"), true);
  await page.click("#place");
  expect("the place", await page.run('const it = document.getElementById("pattern"); return [document.activeElement === it, it.selectionStart, it.selectionEnd]'), [true, 0, 4]);
  await page.open({ hash: linkOf("(?<a>x)(?<a>y)", "u") });
  expect("two places", await page.run('return [...document.querySelectorAll(".paint .wrong")].map((it) => it.textContent)'), ["a", "a"]);
  await page.open({ hash: linkOf("😀(?P<year>a)", "u") });
  expect("between two characters", await page.run('return [document.querySelectorAll(".paint .between").length, document.querySelector(".paint .between").previousSibling.textContent]'), [1, "😀(?"]);
  await page.fill("flags", "gg");
  expect("wrong flags", [await page.text("#said"), await page.text("#excerpt"), await page.run('return document.getElementById("flags").getAttribute("aria-invalid")')], ["Duplicated flag: `g` found", "gg", "true"]);
  await page.run('const it = document.getElementById("pattern"); it.value = "a\\ud800"; it.dispatchEvent(new Event("input"))');
  expect("no UTF-8", await page.text("#said"), "The pattern has a surrogate that stands alone, at 1: write it as an escape, as in \\ud800");
}

async function tryTree(page) {
  await page.open({ hash: linkOf("(?<year>\\d{4})-[a-c]", "u") });
  await page.point('[data-id="6"] .type');
  expect("pointing", await page.run(marked), "\\d{4}");
  await page.point("h1");
  expect("pointing elsewhere", await page.run(marked), "");
  await page.run('document.getElementById("tree").focus()');
  for (const key of ["ArrowDown", "ArrowDown", "ArrowDown"]) await page.key(key);
  expect("keys down", [await page.run(active), await page.run(marked)], ["CapturingGroup group 1, year (?<year>\\d{4})", "(?<year>\\d{4})"]);
  await page.key("ArrowLeft");
  expect("closed", await page.run('return [document.querySelector("[aria-selected=true]").getAttribute("aria-expanded"), document.querySelector("[data-id=\\"4\\"]")]'), ["false", null]);
  await page.key("ArrowRight");
  await page.key("ArrowRight");
  expect("opened, and in it", await page.run(active), "Disjunction \\d{4}");
  await page.key("End");
  expect("the last one", await page.run(active), "Character c U+0063 c");
  await page.key("ArrowLeft");
  expect("the one around it", await page.run(active), "CharacterClassRange a U+0061 to c U+0063 a-c");
  expect("its row", await page.run('const it = document.querySelector("[aria-selected=true]"); return ["level", "posinset", "setsize", "expanded"].map((name) => it.getAttribute(`aria-${name}`)).concat(it.id === document.getElementById("tree").getAttribute("aria-activedescendant"))'), ["5", "1", "1", "true", true]);
  expect("a visible focus", await page.run('return getComputedStyle(document.querySelector("[aria-selected=true]")).outlineStyle'), "solid");
  await page.click("#groups button");
  expect("a group in the tree", await page.run(active), "CapturingGroup group 1, year (?<year>\\d{4})");
  await page.run('const it = document.getElementById("pattern"); it.focus(); it.setSelectionRange(8, 8)');
  await page.until('document.querySelector("[aria-selected=true]")?.innerText.startsWith("CharacterClassEscape")');
}

/** The keys alone reach everything, what has the focus is seen, and what is there has a name. */
async function tryKeys(page) {
  await page.open({ hash: linkOf("(?<year>\\d{4})", "u") });
  await page.run('document.getElementById("pattern").focus()');
  const reached = [];
  for (let presses = 0; presses < 14; presses++) {
    await page.key("Tab");
    reached.push(await page.run(`
      const it = document.activeElement;
      const ring = [it, it.closest(".literal"), it.querySelector("[aria-selected=true]")].some((one) => one && getComputedStyle(one).outlineStyle === "solid");
      return (it.id || it.localName) + (ring ? "" : ", not seen");`));
    if (reached.at(-1).startsWith("tree")) break;
  }
  expect("what Tab reaches", reached, ["flags", "summary", "link", ...Array(6).fill("a"), "copy", "button", "tree"]);
  const { nodes } = await page.browser.send("Accessibility.getFullAXTree");
  const names = (role) => nodes.filter((node) => node.role?.value === role && !node.ignored).map((node) => node.name?.value);
  expect("names of fields", names("textbox").sort(), ["Flags", "Pattern"]);
  expect("the name of the tree", names("tree").map((name) => name.replace(/\d.*/, "").trim()), ["Tree"]);
  expect("rows of the tree", [names("treeitem").length, names("treeitem")[3]], [8, "CapturingGroup group 1, year (?<year>\\d{4})"]);
}

async function tryLinks(page) {
  await page.open({ hash: linkOf('"\\\\d\\x28a)"', "", { form: "constructor", standardStrings: "true" }) });
  expect("a link is read", [await page.text("#spelling"), await page.run('return document.querySelector("[name=standardStrings]").checked')], ["\\d(a)", true]);
  await page.open();
  await page.fill("pattern", "a+b & #");
  await page.fill("flags", "gi");
  await page.until(`location.hash === ${JSON.stringify(linkOf("a+b & #", "gi"))}`);
  await page.run('document.querySelector("nav a:last-child").click()');
  await page.until('document.getElementById("pattern").value === "[a-z&&[aeiou]]"');
  await page.run("document.querySelector('summary').click(); document.querySelector('[name=duplicateNames]').click()");
  await page.fill("pattern", "(?<a>x)|(?<a>y)");
  expect("an option", await page.text("#name"), "duplicated_capturing_group_names");
  await page.until('location.hash.includes("duplicateNames=false")');
}

/** The least contrast of the texts of the page with what is behind them, by the formula of WCAG 2. */
const CONTRASTS = `
  const canvas = document.createElement("canvas").getContext("2d", { willReadFrequently: true });
  const parse = (color) => { canvas.clearRect(0, 0, 1, 1); canvas.fillStyle = color; canvas.fillRect(0, 0, 1, 1); return [...canvas.getImageData(0, 0, 1, 1).data]; };
  const light = ([r, g, b]) => [r, g, b].map((it) => it / 255).map((it) => (it <= 0.04045 ? it / 12.92 : ((it + 0.055) / 1.055) ** 2.4)).reduce((sum, it, at) => sum + it * [0.2126, 0.7152, 0.0722][at], 0);
  const behind = (element) => { for (let at = element; at; at = at.parentElement) { const color = parse(getComputedStyle(at).backgroundColor); if (color[3] === 255) return color; } return parse("white"); };
  const least = {};
  for (const element of document.querySelectorAll("body *:not(textarea):not(script)")) {
    const hasText = [...element.childNodes].some((node) => node.nodeType === 3 && node.data.trim() !== "");
    if (!hasText || element.getClientRects().length === 0 || element.matches(":disabled, .unseen")) continue;
    const [one, other] = [light(parse(getComputedStyle(element).color)), light(behind(element))].sort((a, b) => b - a);
    const contrast = (one + 0.05) / (other + 0.05);
    const name = element.className || element.id || element.localName;
    least[name] = Math.min(least[name] ?? 99, Math.round(contrast * 100) / 100);
  }
  return least;`;

async function tryColours(page) {
  const all = "^(?i-s:a|.)(?<n>\\d+\\x41)\\k<n>[a-z]";
  for (const isDark of [false, true]) {
    for (const hash of [linkOf(all, "u"), linkOf("[a-z&&[aeiou]]", "v")]) {
      await page.open({ isDark, hash });
      await page.point("#tree").catch(() => {});
      const contrasts = await page.run(CONTRASTS);
      expect(`low contrast, ${isDark ? "dark" : "light"}`, Object.entries(contrasts).filter(([, contrast]) => contrast < CONTRAST), []);
      if (hash.includes("%28")) expect("all colours are there", ["char", "escape", "dot", "set", "class", "assert", "group", "bar", "modifier", "quantifier", "reference"].filter((kind) => !(kind in contrasts)), []);
    }
    expect("dark and light differ", (await page.run("return getComputedStyle(document.body).backgroundColor")) === "rgb(17, 19, 24)", isDark);
  }
}

/** Whether the field needs as much height as the layer under it has: their lines break at the same places. */
const LINES = `
  const field = document.getElementById("pattern");
  const high = field.clientHeight;
  field.style.height = "0";
  const needed = field.scrollHeight;
  field.style.height = "";
  return Math.abs(needed - high) <= 1;`;

async function tryNarrow(page) {
  const mixed = "(?<!x)[a-f\\d]+|\\bword é😀 {2,3}\\u{1F600}-漢字 ".repeat(20);
  for (const size of [WIDE, NARROW]) {
    await page.open({ size, hash: linkOf(mixed, "u") });
    expect("lines of a field", await page.run(LINES), true);
  }
  for (const hash of [linkOf("^(?<year>\\d{4})-(?<month>0[1-9]|1[0-2])$", "u"), linkOf("[a-z&&[aeiou]]", "v"), linkOf("a".repeat(400), "")]) {
    await page.open({ size: NARROW, hash });
    await page.run('document.getElementById("options").open = true');
    expect("nothing sticks out", await page.run("return [document.documentElement.scrollWidth <= innerWidth, [...document.querySelectorAll('body *')].filter((it) => it.getBoundingClientRect().right > innerWidth + 1 && !it.closest('.unseen, [role=tree], table')).map((it) => it.className || it.localName)]"), [true, []]);
    expect("the text stands under what is typed", await page.run(LINES), true);
  }
}

/** What is typed moves nothing, by the browser's own count of shifts; less than a thousandth of the screen does not count. */
async function tryStillness(page) {
  await page.open({ hash: linkOf("(a", "u") });
  await page.run('window.shifts = []; new PerformanceObserver((list) => shifts.push(...list.getEntries().map((it) => it.value))).observe({ type: "layout-shift" })');
  const places = 'return ["#answer", "#tree-title", "#colours", "footer"].map((it) => document.querySelector(it).getBoundingClientRect().top)';
  const before = await page.run(places);
  for (const pattern of ["(a)(?<b>c)", "(a", "[a-z&&[aeiou]]", "\\p{L}"]) {
    await page.fill("pattern", pattern);
    expect("nothing moves", await page.run(places), before);
  }
  expect("no shift", await page.run("await new Promise((resolve) => setTimeout(resolve, 100)); return shifts.reduce((sum, it) => sum + it, 0) < 0.001"), true);
}

/** From a file the browser loads no module: the page says what to do. */
async function tryFile(page) {
  const count = page.browser.faults.length;
  await page.browser.send("Page.navigate", { url: new URL("index.html", import.meta.url).href });
  await page.until('document.readyState === "complete"');
  expect("from a file", (await page.text("#unloaded"))?.includes("python3 -m http.server"), true);
  page.browser.faults.length = count;
}

/** Without the module the page says what makes it. */
async function tryBare(page) {
  const count = page.browser.faults.length;
  await page.browser.send("Page.navigate", { url: new URL("/bare/web/", page.address).href });
  await page.until('document.getElementById("unloaded")?.hidden === false');
  const told = await page.text("#unloaded");
  expect("without the module", [told.includes("titaniumbat.wasm: status 404."), told.includes("tools/archive.py wasm")], [true, true]);
  page.browser.faults.length = count;
}

/** Milliseconds of processor time that the page took, so that other work on the machine does not count. */
async function work(page) {
  const { metrics } = await page.browser.send("Performance.getMetrics");
  return 1000 * metrics.find((it) => it.name === "TaskDuration").value;
}

async function tryLarge(page, told) {
  await page.open();
  await page.browser.send("Performance.enable", { timeDomain: "threadTicks" });
  const large = "(?<!x)[a-f\\d]+|\\bword ".repeat(4400);
  const deep = "(".repeat(25000) + "a".repeat(50000) + ")".repeat(25000);
  for (const [name, text] of [["alternatives", large], ["groups in one another", deep]]) {
    await page.fill("pattern", "a");
    const before = await work(page);
    const begin = performance.now();
    await page.run(`const it = document.getElementById("pattern"); it.value = ${JSON.stringify(text)}; it.dispatchEvent(new Event("input")); document.body.offsetHeight`);
    const typed = await work(page);
    await page.until('Number(document.getElementById("node-count").textContent.replace(/\\D/g, "")) > 50000 && document.querySelectorAll("[role=treeitem]").length > 5', 20000);
    const shown = await work(page);
    expect(`${name}: what is typed is shown within ${TYPED} ms`, typed - before < TYPED, true);
    expect(`${name}: the answer is shown within ${ANSWERED} ms`, shown - before < ANSWERED, true);
    expect(`${name}: few rows`, (await page.run(rows)) < 300, true);
    told.push(`${name}, ${text.length} characters, ${await page.text("#node-count")}: shown after ${Math.round(typed - before)} ms, read and painted after ${Math.round(shown - before)} ms of processor time, ${Math.round(performance.now() - begin)} ms by the clock`);
  }
  await page.run('document.getElementById("tree").focus()');
  await page.key("End");
  expect("the end of a large tree", await page.run('return document.querySelector("[aria-selected=true]") !== null'), true);
  await page.until('document.getElementById("link").title === "The pattern is too long for a link"');
}

/** The picture for docs/: a pattern with most colours, and one node pointed at. */
async function picture(page, path) {
  await page.open({ size: { width: 1200, height: 880 }, hash: linkOf("(?<=\\s|^)(?<tag>#[\\p{L}\\d_]{2,})(?:\\.\\k<tag>)*?", "v") });
  await page.browser.send("Emulation.setScrollbarsHidden", { hidden: true });
  await page.point('[data-id="9"] .type');
  writeFileSync(path, await page.picture());
}

async function main(words) {
  const told = [];
  const server = await serve();
  const browser = new Browser();
  try {
    await browser.open();
    const page = new Page(browser, `http://127.0.0.1:${server.address().port}/web/`);
    if (words[0] === "--picture") return await picture(page, words[1]);
    for (const part of [tryTyping, tryRefusals, tryTree, tryKeys, tryLinks, tryColours, tryNarrow, tryStillness, tryLarge, tryBare, tryFile]) {
      await part(page, told).catch((error) => wrong.push(`${part.name}: ${error.stack}`));
    }
    expect("faults", browser.faults, []);
  } finally {
    await browser.close();
    server.close();
  }
  for (const line of [...wrong.map((it) => `web: ${it}`), ...told.map((it) => `web: ${it}`)]) console.log(line);
  console.log(`web: ${tried} comparisons, ${wrong.length} wrong`);
  process.exitCode = wrong.length > 0 ? 1 : 0;
}

await main(process.argv.slice(2));
