// Reads what is typed, and shows the answer.
import { load, parse, RegExpRefused } from "../js/browser.js";
import { Outline } from "./outline.js";
import { Paint, piece, tokenAt, tokensOf, wrongTokens } from "./paint.js";

const LARGE = 20000; // from this length on a pattern is read when typing pauses
const PAUSE = 150;
const LONGEST_LINK = 8000;
const GROUPS = 200; // rows of groups that are shown
const SPELLED = 4000; // characters of a spelling that are shown
const NEAR = 24; // characters that are shown on each side of what is wrong
const PREFIX = "Invalid regular expression: ";
const SWITCHES = ["duplicateNames", "bufferBoundaries", "standardStrings"];
const FIRST = "#pattern=%5E(%3F%3Cyear%3E%5Cd%7B4%7D)-(%3F%3Cmonth%3E0%5B1-9%5D%7C1%5B0-2%5D)%24&flags=u";

const at = (id) => document.getElementById(id);
const asked = at("asked");
const pattern = at("pattern");
const flags = at("flags");
const paint = new Paint(document.querySelector(".paint"), document.querySelector(".scroller"));
const outline = new Outline(at("tree"), mark);
const count = (number) => number.toLocaleString("en");

let tokens = [];
let spelling = "";
let refusal = null;
let reading = 0;
let drawing = 0;
let telling = 0;
let linking = 0;

/** Marks the text of a node, and shows it where the node was chosen. */
function mark(node, isChosen) {
  paint.mark(node);
  if (isChosen) paint.reveal(node.start);
}

function options() {
  const form = asked.elements.form.value;
  return { form, ...Object.fromEntries(SWITCHES.map((name) => [name, asked.elements[name].checked])) };
}

/** Shows what was typed as it is, and reads it: at once, or when typing pauses. */
function typed() {
  clearTimeout(reading);
  if (pattern.value.length < LARGE) return read();
  noTree();
  paint.show(pattern.value);
  reading = setTimeout(read, PAUSE);
}

function read() {
  clearTimeout(reading);
  try {
    // No flags text and an empty one are the same between slashes. As an argument of RegExp an empty text has no quotes.
    showRead(parse(pattern.value, flags.value === "" ? null : flags.value, options()));
  } catch (error) {
    if (error instanceof RegExpRefused) showRefused(error);
    else showFault(error);
  }
  clearTimeout(telling);
  telling = setTimeout(() => (at("live").textContent = `${at("said").textContent}. ${refusal?.help ?? ""}`), 700);
  clearTimeout(linking);
  linking = setTimeout(writeLink, 300);
}

function verdict(text, isGood) {
  at("said").textContent = text;
  at("said").className = `verdict ${isGood ? "good" : "bad"}`;
  at("read").hidden = !isGood;
}

/** The tokens of all of the text: what stands outside of the pattern, as quotes do, is of no node. An empty pattern has the places of another text. */
function tokensOfText(text, parsed) {
  const { start, end } = parsed.root;
  if (end > text.length) return [{ start: 0, end: text.length, kind: "other", owner: null }];
  const around = (from, to) => (to > from ? [{ start: from, end: to, kind: "other", owner: null }] : []);
  return [...around(0, start), ...tokensOf(parsed), ...around(end, text.length)];
}

function showRead(parsed) {
  refusal = null;
  tokens = tokensOfText(pattern.value, parsed);
  paint.show(pattern.value, tokens);
  verdict(`Valid in ${parsed.mode} mode`, true);
  at("refused").hidden = true;
  flags.removeAttribute("aria-invalid");
  ({ spelling } = parsed);
  at("spelling").textContent = spelling.length > SPELLED ? `${spelling.slice(0, SPELLED)}… (${count(spelling.length)} characters)` : spelling;
  showGroups(parsed);
  at("node-count").textContent = `${count(parsed.count)} nodes`;
  drawTree(parsed, tokens);
}

function showGroups({ groups }) {
  at("group-count").textContent = groups.length > 0 ? count(groups.length) : "";
  at("groups").hidden = groups.length === 0;
  at("groups").tBodies[0].replaceChildren(...groups.slice(0, GROUPS).map(groupRow));
  at("no-groups").textContent = groups.length === 0 ? "No group captures." : groups.length > GROUPS ? `And ${count(groups.length - GROUPS)} more.` : "";
}

function groupRow(group) {
  const row = document.createElement("tr");
  const button = document.createElement("button");
  button.type = "button";
  button.textContent = group.number;
  button.title = "Show it in the tree";
  const text = document.createElement("code");
  text.textContent = pattern.value.slice(group.start, group.end).slice(0, 200);
  for (const content of [button, group.name ?? "–", text]) row.insertCell().append(content);
  button.addEventListener("click", () => {
    outline.select(group.id);
    at("tree").focus();
  });
  row.addEventListener("pointerenter", () => paint.mark(group));
  row.addEventListener("pointerleave", () => paint.mark(null));
  return row;
}

/** Draws the tree: of a large pattern after the rest is seen. */
function drawTree(parsed, tokens) {
  const draw = () => {
    showTree(true);
    outline.show(parsed, pattern.value, tokens);
  };
  clearTimeout(drawing);
  if (pattern.value.length < LARGE) draw();
  else drawing = setTimeout(draw);
}

function showTree(isThere) {
  at("tree").hidden = !isThere;
  at("no-tree").hidden = isThere;
}

function noTree() {
  clearTimeout(drawing);
  tokens = [];
  at("node-count").textContent = "";
  outline.show(null);
  showTree(false);
}

function showRefused(error) {
  refusal = error;
  const isFlags = error.field === "flags";
  const text = isFlags ? flags.value : pattern.value;
  paint.show(pattern.value, isFlags ? undefined : wrongTokens(pattern.value, error.spans));
  verdict(error.message.replace(PREFIX, ""), false);
  at("refused").hidden = false;
  if (isFlags) flags.setAttribute("aria-invalid", "true");
  else flags.removeAttribute("aria-invalid");
  at("excerpt").firstElementChild.replaceChildren(...excerpt(text, error.spans));
  at("help").textContent = error.help === null ? "" : `Help: ${error.help}`;
  at("name").textContent = error.kind === null ? error.code : `${error.code}, ${error.kind}`;
  at("place").textContent = `${error.spans.map(placed).join(" and ")} of the ${error.field}`;
  noTree();
}

const placed = ({ start, end }) => (start === end ? `at ${start}` : `${start} to ${end}`);

/** The text around what is wrong, with what is wrong marked. */
function excerpt(text, spans) {
  const from = Math.max(0, Math.min(...spans.map((span) => span.start)) - NEAR);
  const to = Math.min(text.length, Math.max(...spans.map((span) => span.end)) + NEAR);
  const moved = spans.map(({ start, end }) => ({ start: start - from, end: end - from }));
  const near = text.slice(from, to);
  const pieces = wrongTokens(near, moved).map(({ start, end, kind }) => piece(near.slice(start, end), kind));
  return [from > 0 ? "…" : "", ...pieces, to < text.length ? "…" : ""];
}

/** What is neither read nor refused: a text that has no UTF-8, or no memory. */
function showFault(error) {
  refusal = null;
  paint.show(pattern.value);
  verdict(error.message.replace(/^the/, "The"), false);
  at("refused").hidden = true;
  flags.removeAttribute("aria-invalid");
  noTree();
}

/** Selects what is wrong in its field. */
function goToPlace() {
  const field = refusal.field === "flags" ? flags : pattern;
  field.focus();
  field.setSelectionRange(refusal.spans[0].start, refusal.spans[0].end);
  if (field === pattern) paint.reveal(refusal.spans[0].start);
}

/** Makes the node at the caret the active one of the tree. */
function followCaret() {
  if (document.activeElement !== pattern || tokens.length === 0) return;
  const { owner } = tokens[tokenAt(tokens, pattern.selectionStart)];
  if (owner?.id !== undefined && !at("tree").hidden) outline.select(owner.id);
}

// The link holds the input after its `#`.

function linkOf() {
  const words = new URLSearchParams({ pattern: pattern.value, flags: flags.value });
  const { form, ...switches } = options();
  if (form !== "literal") words.set("form", form);
  for (const name of SWITCHES) if (switches[name] !== asked.elements[name].defaultChecked) words.set(name, switches[name]);
  return `#${words}`;
}

function writeLink() {
  const isShort = pattern.value.length <= LONGEST_LINK;
  at("link").disabled = !isShort;
  at("link").title = isShort ? "" : "The pattern is too long for a link";
  history.replaceState(null, "", isShort ? linkOf() : location.pathname);
}

function readLink() {
  const words = new URLSearchParams((location.hash.length > 1 ? location.hash : FIRST).slice(1));
  pattern.value = words.get("pattern") ?? "";
  flags.value = words.get("flags") ?? "";
  asked.elements.form.value = words.get("form") === "constructor" ? "constructor" : "literal";
  for (const name of SWITCHES) asked.elements[name].checked = words.has(name) ? words.get(name) === "true" : asked.elements[name].defaultChecked;
  showForm();
  read();
}

/** Copies a text, and says so on the button for a while. */
async function copy(button, text) {
  const { textContent } = button;
  try {
    await navigator.clipboard.writeText(text);
    button.textContent = "Copied";
  } catch {
    button.textContent = "Not allowed";
  }
  button.disabled = true;
  setTimeout(() => Object.assign(button, { textContent, disabled: false }), 1200);
}

/** The signs around the texts, and which options there are. */
function showForm() {
  const { form } = options();
  for (const fence of document.querySelectorAll(".fence")) fence.textContent = fence.dataset[form];
  asked.elements.standardStrings.disabled = form === "literal";
}

try {
  await load();
  document.body.classList.add("painted");
  pattern.addEventListener("input", typed);
  flags.addEventListener("input", read);
  at("options").addEventListener("change", () => {
    showForm();
    read();
  });
  asked.addEventListener("submit", (event) => event.preventDefault());
  at("place").addEventListener("click", goToPlace);
  at("link").addEventListener("click", () => {
    writeLink();
    copy(at("link"), location.href);
  });
  at("copy").addEventListener("click", () => copy(at("copy"), spelling));
  document.addEventListener("selectionchange", followCaret);
  addEventListener("hashchange", readLink);
  readLink();
} catch (error) {
  at("unloaded").textContent = `The reader could not be loaded: ${error.message}. In the repository, tools/archive.py wasm makes its module.`;
  at("unloaded").hidden = false;
}
