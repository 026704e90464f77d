"use strict";
// The hooks at work: asks the module for the steps of what is typed, and shows them.

// The most characters that the fields and the address keep.
const MOST_KEPT = 20000;
const MOST_IN_ADDRESS = 2000;
// From how many characters of the table on a row is drawn when it comes into sight.
const LONG_ROW = 10000;
const COLUMNS = ["glyph", "cluster", "mask", "syllable", "category", "auxiliary", "class", "advance", "offset"];
const FIELDS = ["script", "direction", "level"];
const FLAGS = ["f20", "f40", "f80"];
const OPTIONS = ["sound", "always", "gposmark", "beginning"];

// The word that the page opens with.
const FIRST_WORD = "\u1781\u17d2\u1798\u17c2\u179a";

let hooks = null;
let [shown, shaped, findings] = [null, null, []];

// ---- What is asked ----

// The sum of the flags that are set, by their numbers.
function flagsBy(number) {
  return FLAGS.filter((id) => by(id).checked).reduce((sum, id) => sum + number(id), 0).toString(16);
}

// What is asked of a text, at the level of clusters that is chosen or at another one.
function textRequest(text, level = by("level").value) {
  const flags = flagsBy((id) => parseInt(id.slice(1), 16));
  const options = OPTIONS.filter((id) => by(id).checked).join(" ");
  const fields = FIELDS.map((id) => (id === "level" ? level : by(id).value));
  return ["text", ...fields, flags, options, text].join("\n");
}

// Cuts a field off that would be too long to lay out, and says so.
function keepShort(field) {
  const length = field.value.length;
  if (length <= MOST_KEPT) return "";
  field.value = field.value.slice(0, MOST_KEPT).toWellFormed();
  return `Too long: of ${length} code units the first ${MOST_KEPT} are kept. `;
}

const isOfLines = () => by("by-lines").open && by("lines").value !== "";

// Asks, and shows the answer; the time that this took is in the page, for its test.
function run() {
  const began = performance.now();
  const cut = keepShort(by("text")) + keepShort(by("lines"));
  const text = by("text").value;
  try {
    shown = hooks.ask(isOfLines() ? "lines\n" + by("lines").value : textRequest(text));
    show(text, cut);
  } catch (error) {
    shown = null;
    by("note").textContent = `${cut}The program ended: ${error.message}`;
  }
  showShaped();
  keepAddress();
  document.body.dataset.took = performance.now() - began;
  document.dispatchEvent(new Event("shown"));
}

// The steps of the text at another level of clusters. The shown ones are asked for again, as the module tells of the glyphs of
// the steps that it had last.
function stepsAt(level, text) {
  const steps = hooks.ask(textRequest(text, level));
  hooks.ask(textRequest(text));
  return steps;
}

// ---- The text in a font ----

// The steps of a text in the font; null where the module ended (it is started anew then).
function shapedText(text, level) {
  try {
    return hooks.ask(textRequest(text, level).replace("text", "shaped"));
  } catch {
    return null;
  }
}

// Shows the steps of the text in the font: what is before its lookups, each lookup that changes the text, and the end.
function showShaped() {
  const text = by("text").value;
  shaped = text !== "" && !isOfLines() ? shapedText(text) : null;
  by("in-font").hidden = !shaped;
  by("shaped").replaceChildren(...(shaped?.steps ?? []).map(shapedElement));
  by("shaped-legend").innerHTML = shaped?.legend ?? "";
  findings = text !== "" && !isOfLines() ? findingsOf(text, shown, shaped, hooks.font) : [];
  answer(null);
}

// Shows the word and whose a difference is: with so many glyphs that HarfRust draws otherwise, or null as long as none is known,
// and with the sentences on the font that need its outlines.
function answer(differ, sentences = []) {
  const all = [...findings, ...sentences.map((sentence) => finding("font", sentence))];
  showAnswer(isOfLines() ? "" : by("text").value, all, shown?.script ?? null, differ);
}

function shapedElement(step) {
  const element = made("section", { class: "shaped", "data-head": step.heads[0] });
  element.append(...headingElements(step.heads, "h3"), made("p", { class: "told" }, step.told));
  const row = made("div", { class: "drawn" });
  row.innerHTML = step.drawn;
  element.append(row, tableElement(step));
  return element;
}

// Lends a font to the browser, which then draws by it the text box, characters in sentences and a word to compare with. Where
// the browser refuses a file, it isn't lent, and there is no word.
async function lendFont(bytes) {
  try {
    const face = await new FontFace("chosen", bytes).load();
    document.fonts.clear();
    document.fonts.add(face);
    by("browsers").hidden = false;
  } catch {
    document.fonts.clear();
    by("browsers").hidden = true;
  }
}

// Takes the font that is dropped on the page for these steps.
function showShapedBy(name, bytes) {
  lendFont(bytes);
  by("shaped-font").textContent = by("font-name").textContent = name;
  by("font-has").textContent = "";
  hooks.takeFont(bytes);
  showShaped();
}

// ---- The address ----

function parameters() {
  const kept = new URLSearchParams();
  if (isOfLines()) {
    kept.set("lines", by("lines").value.slice(0, MOST_IN_ADDRESS).toWellFormed());
    return kept;
  }
  kept.set("text", by("text").value.slice(0, MOST_IN_ADDRESS).toWellFormed());
  for (const id of FIELDS) if (by(id).value && by(id).value !== "0") kept.set(id, by(id).value);
  const chosen = [...FLAGS, ...OPTIONS].filter((id) => by(id).checked);
  if (chosen.length) kept.set("with", chosen.join(" "));
  return kept;
}

function keepAddress() {
  clearTimeout(keepAddress.waiting); // (browsers refuse many changes of the address in a short time)
  keepAddress.waiting = setTimeout(() => history.replaceState(null, "", "#" + parameters()), 300);
}

// Fills the fields from what stands behind #.
function readAddress(kept) {
  by("by-lines").open = kept.has("lines");
  by("lines").value = kept.get("lines") ?? "";
  by("text").value = kept.get("text") ?? "";
  for (const id of FIELDS) by(id).value = kept.get(id) ?? (id === "level" ? "0" : "");
  const chosen = (kept.get("with") ?? "").split(" ");
  for (const id of [...FLAGS, ...OPTIONS]) by(id).checked = chosen.includes(id);
}

// ---- What is shown ----

function show(text, cut) {
  by("note").textContent = cut + note(text);
  by("breaks").replaceChildren(...(shown?.pieces.length ? breaks(shown.pieces) : []));
  by("steps").replaceChildren(...(shown?.steps ?? []).map(stepElement));
  by("legend").innerHTML = shown?.legend ?? "";
}

function note(text) {
  if (!shown) return text === "" ? "Type a text, or choose an example." : "No script of this text has steps of its own; the font’s steps are below.";
  const parts = [];
  if (!isOfLines() && !text.isWellFormed()) parts.push("Unpaired surrogates are shaped as FFFD.");
  if (shown.script && shown.length > shown.most)
    parts.push(`Of ${shown.length} characters no more than the first ${shown.most} are drawn.`);
  if (shown.script) parts.push(`Script: ${scriptName(shown.script)}.`);
  if (shown.ended) parts.push(`Ended at ${shown.ended}.`);
  return parts.join(" ");
}

// A script's name: Unicode's where the browser has another one.
const plainName = (code) => (code === "Beng" ? "Bengali" : new Intl.DisplayNames("en", { type: "script" }).of(code));

function scriptName(code) {
  const name = plainName(code);
  return name === code ? code : `${name} (${code})`;
}

// The text with a bar where no flag forbids a line break.
function breaks(pieces) {
  const bar = () => made("span", { class: "may" }, "|");
  return ["A line may be broken at ", bar(), " without shaping again: ", made("bdi", {}, ...pieces.flatMap((piece, i) => (i ? [bar(), piece] : [piece])))];
}

function stepElement(step, number) {
  const element = made("section", { class: "step", "data-step": number, "data-head": step.heads[0] });
  element.append(...headingElements(step.heads, "h3"), made("p", { class: "told" }, step.told));
  for (const answer of step.answers) element.append(made("p", { class: "answer" }, "answered ", made("code", {}, answer)));
  if (step.told !== "Nothing changed." || number === 0) element.append(drawing(step));
  element.append(tableElement(step));
  if (step.subject) element.append(folded("Definition", definition(step.subject)));
  return element;
}

// A row, drawn at once if it is short, and else when it comes into sight.
function drawing(step) {
  const element = made("div", { class: "drawn" });
  if (step.printed.length < LONG_ROW) {
    draw(element, step);
  } else {
    element.classList.add("waiting");
    element.step = step;
    watcher.observe(element);
  }
  return element;
}

const watcher = new IntersectionObserver((seen) => {
  for (const { target } of seen.filter((entry) => entry.isIntersecting)) {
    watcher.unobserve(target);
    target.classList.remove("waiting");
    draw(target, target.step);
  }
});

// Draws a row as `--draw` does, in HTML in which every text is escaped. Each box becomes a button.
function draw(element, step) {
  element.innerHTML = step.drawn;
  const numbers = step.printed.split("\n").map((line) => line.split(" ", 1)[0]);
  boxes(element).forEach((box, place) => {
    box.setAttribute("role", "button");
    box.setAttribute("tabindex", place === 0 ? 0 : -1);
    box.setAttribute("aria-label", `glyph ${place}: ${numbers[place]}`);
  });
}

function boxes(element) {
  return [...element.querySelectorAll(".row g")];
}

const folded = (name, element) => made("details", {}, made("summary", {}, name), element);

// The glyphs as the program prints them, one row each.
function tableElement(step) {
  const rows = step.printed.split("\n").filter((line) => line !== "");
  const count = rows.length ? rows[0].split(" ").length : 0;
  const head = made("tr", {}, ...COLUMNS.slice(0, count).map((name) => made("th", { scope: "col" }, name)));
  const cells = (line) => made("tr", {}, ...line.split(" ").map((cell) => made("td", {}, cell)));
  const table = made("table", {}, made("thead", {}, head), made("tbody"));
  const details = folded("Table", made("div", { class: "table", tabindex: 0, role: "group", "aria-label": "Table" }, table));
  details.addEventListener("toggle", () => {
    if (details.open && !table.tBodies[0].rows.length) table.tBodies[0].append(...rows.map(cells));
  });
  return details;
}

// An entry of definitions.md.
function definition([part, entry]) {
  const text = TEXTS.definitions.split(`\n## \`${part}\`\n`)[1]?.split("\n## ")[0] ?? "";
  const found = text.split("\n\n").find((block) => block.trimStart().startsWith(`**${entry}**`)) ?? "";
  const body = found.replace(/^\s*\*\*\w+\*\* `\w+`:\s+/, "").replaceAll("\n", " ");
  return made("p", { class: "definition" }, made("b", {}, `${part}, ${entry}`), "\n", body);
}

// ---- A glyph ----

// Shows all fields of a glyph below its row, and what moved it.
function showGlyph(box) {
  const element = box.closest(".step");
  const number = Number(element.dataset.step);
  const place = boxes(element).indexOf(box);
  const { fields, moves } = hooks.ask(`glyph\n${number}\n${place}`);
  const list = made("dl", {}, ...fields.flatMap(([name, value]) => [made("dt", {}, name), made("dd", {}, made("bdi", {}, value))]));
  const panel = made("div", { class: "glyph", role: "status" }, list);
  if (!moves.length) panel.append(made("p", {}, "Nothing so far has moved it."));
  for (const [mover, from, to] of moves) {
    const step = shown.steps[mover];
    panel.append(made("p", {}, `${headingOf(step.heads[0])} (`, made("code", {}, step.heads[0]), `): this moved it from place ${from} to place ${to}.`));
    if (step.subject) panel.append(definition(step.subject));
  }
  document.querySelector(".glyph")?.remove();
  box.closest(".drawn").after(panel);
}

// Moves the focus along the boxes of a row.
function walkRow(box, key) {
  const row = boxes(box.closest(".step"));
  const isRtl = box.closest(".rtl") !== null;
  const step = { ArrowRight: isRtl ? -1 : 1, ArrowLeft: isRtl ? 1 : -1 }[key];
  const next = { Home: row[0], End: row.at(-1) }[key] ?? row[row.indexOf(box) + step];
  if (!next) return;
  box.setAttribute("tabindex", -1);
  next.setAttribute("tabindex", 0);
  next.focus();
}

function boxOf(event) {
  const box = event.target.closest?.("g[role=button]");
  return box && by("steps").contains(box) ? box : null;
}

by("steps").addEventListener("click", (event) => {
  if (boxOf(event)) showGlyph(boxOf(event));
});
by("steps").addEventListener("keydown", (event) => {
  const box = boxOf(event);
  if (!box || event.altKey || event.ctrlKey || event.metaKey) return;
  if (event.key === "Enter" || event.key === " ") showGlyph(box);
  else if (["ArrowRight", "ArrowLeft", "Home", "End"].includes(event.key)) walkRow(box, event.key);
  else return;
  event.preventDefault();
});

// ---- Examples ----

// The text of code points, each with how often it comes (0915 0951*256), or the text itself.
function exampleText(text) {
  if (!/^[0-9A-F* ]+$/.test(text)) return text;
  const items = text.split(" ").map((item) => item.split("*"));
  return items.map(([number, times]) => String.fromCodePoint(parseInt(number, 16)).repeat(times ?? 1)).join("");
}

function addExamples() {
  const groups = { "Faults of the README": [], "A word of each script": [], "Lines": [] };
  for (const line of TEXTS.examples.trim().split("\n")) {
    const [name, chosen, text] = line.split("\t");
    const kept = new URLSearchParams(chosen);
    kept.set("text", exampleText(text));
    groups[name.length === 4 ? "A word of each script" : "Faults of the README"].push([name.length === 4 ? scriptName(name) : name, kept]);
  }
  for (const [name, lines] of Object.entries(TEXTS.lines)) groups.Lines.push([name, new URLSearchParams({ lines })]);
  for (const [label, examples] of Object.entries(groups)) {
    const options = examples.map(([name, kept]) => made("option", { value: kept }, name));
    by("example").append(made("optgroup", { label }, ...options));
  }
}

// ---- The start ----

async function start() {
  hooks = await Module.load(HOOKS);
  hooks.takeFont(decoded(TEXTS.font));
  lendFont(decoded(TEXTS.font));
  document.head.prepend(made("style", {}, hooks.ask("style")));
  for (const code of hooks.ask("scripts")) by("script").append(made("option", { value: code }, scriptName(code)));
  addExamples();
  const kept = new URLSearchParams(location.hash.slice(1));
  if (!kept.has("text") && !kept.has("lines")) kept.set("text", FIRST_WORD);
  readAddress(kept);
  by("form").addEventListener("submit", (event) => event.preventDefault());
  for (const id of ["text", ...FIELDS, ...FLAGS, ...OPTIONS]) by(id).addEventListener("input", () => {
    by("by-lines").open = false;
    run();
  });
  by("lines").addEventListener("input", run);
  by("example").addEventListener("change", () => {
    readAddress(new URLSearchParams(by("example").value));
    run();
  });
  window.addEventListener("hashchange", (event) => {
    readAddress(new URLSearchParams(new URL(event.newURL).hash.slice(1)));
    run();
  });
  run();
  document.body.dataset.ready = "yes";
}

const started = start();
