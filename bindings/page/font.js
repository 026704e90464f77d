"use strict";
// The text with a font: shaped by HarfRust as it is and with the hooks, and broken where flags allow it.

// The most characters that are drawn with a font.
const MOST_DRAWN = 500;

let [fonts, loading, metrics, outlines] = [null, null, null, new Map()];

// ---- The font ----

// The module of fonts, which is loaded with the first font.
async function loadFonts() {
  await new Promise((resolve, reject) => {
    const script = made("script", { src: "fonts.js" });
    script.addEventListener("load", resolve);
    script.addEventListener("error", () => reject(new Error("fonts.js isn't beside this page")));
    document.head.append(script);
  });
  return Module.load(FONTS);
}

// Takes the font of the page, to compare the shapers with.
async function takeSample(bytes) {
  try {
    fonts = await (loading ??= loadFonts());
  } catch {
    return; // (nothing is compared where fonts.js isn't beside the page)
  }
  if (metrics || fonts.font) return; // (another font came first)
  fonts.takeFont(bytes);
  metrics = fonts.ask("name");
  showWithFont();
  document.body.dataset.compared = "yes";
}

async function takeFont(file) {
  if (!file) return;
  try {
    fonts = await (loading ??= loadFonts());
    const bytes = new Uint8Array(await file.arrayBuffer());
    fonts.takeFont(bytes);
    metrics = fonts.ask("name");
    outlines = new Map();
    by("font-note").textContent = metrics ? `${file.name}, ${metrics.units} units per em.` : `${file.name} can't be read as a font.`;
  } catch (error) {
    metrics = null;
    by("font-note").textContent = `${file.name}: ${error.message}`;
  }
  if (metrics) showShapedBy(file.name, fonts.font);
  else by("findings").replaceChildren(); // (an answer about another font would be taken for one about this file)
  showWithFont();
}

// ---- Shaping ----

// Asks for glyphs of a text, which are null where there are none.
function ask(kind, which, ...rest) {
  const flags = flagsBy((id) => ({ f20: 0x10, f40: 0x40, f80: 0x80 })[id]);
  const setting = FIELDS.map((id) => by(id).value);
  return fonts.ask([kind, which, ...setting, flags, ...rest].join("\n")) ?? [];
}

// The glyphs with the places where they are drawn.
function placed(glyphs) {
  let pen = 0;
  for (const glyph of glyphs) {
    glyph.at = `${pen + glyph.x} ${-glyph.y}`;
    pen += glyph.advance;
  }
  return glyphs;
}

const widthOf = (glyphs) => glyphs.reduce((sum, glyph) => sum + glyph.advance, 0);

// From which part of the smaller one's ink on two marks are told to be drawn over each other; and by how many points along each
// side of a mark its ink is measured.
const MOST_COVERED = 0.5;
const MEASURED = 20;

// The points of a placed glyph's ink, in a grid over the box around its outline; and whether a point is in its ink.
function inkOf(glyph, canvas) {
  const numbers = [...(outlines.get(glyph.number) ?? "").matchAll(/-?[\d.]+/g)].map(Number);
  const [x, y] = glyph.at.split(" ").map(Number);
  const path = new Path2D(outlines.get(glyph.number));
  const isInked = ([along, down]) => canvas.isPointInPath(path, along - x, down - y);
  const steps = (axis, from) => {
    const places = numbers.filter((_, i) => i % 2 === axis);
    const [least, most] = [Math.min(...places), Math.max(...places)];
    return Array.from({ length: MEASURED }, (_, i) => from + least + ((most - least) * (i + 0.5)) / MEASURED);
  };
  const columns = steps(0, x);
  const points = steps(1, y).flatMap((down) => columns.map((along) => [along, down])).filter(isInked);
  return { points, isInked };
}

// How much of a glyph's ink lies in that of another one.
function coveredPart(glyph, other, canvas) {
  const { points } = inkOf(glyph, canvas);
  const { isInked } = inkOf(other, canvas);
  return points.length ? points.filter(isInked).length / points.length : 0;
}

// The placed glyphs of a text, by the places of their characters.
function glyphsByPlace(text) {
  const [script, direction] = ["script", "direction"].map((id) => by(id).value);
  const glyphs = placed(fonts.ask(["shape", "sengadlit", script, direction, UNMERGED, "0", text].join("\n")) ?? []);
  const starts = [0];
  for (const c of text) starts.push(starts.at(-1) + new TextEncoder().encode(c).length);
  const byStart = Map.groupBy(glyphs, ({ cluster }) => cluster);
  return (place) => byStart.get(starts[place]) ?? [];
}

// Tells of a place in a text whether its character's glyph and that of the next one are drawn over each other.
function coveringMarks(text) {
  const glyphsAt = glyphsByPlace(text);
  const canvas = made("canvas").getContext("2d");
  return (place) => {
    const [one, other] = [glyphsAt(place), glyphsAt(place + 1)];
    if (one.length !== 1 || other.length !== 1) return false;
    loadOutlines([...one, ...other]);
    return Math.max(coveredPart(one[0], other[0], canvas), coveredPart(other[0], one[0], canvas)) >= MOST_COVERED;
  };
}

// Tells of a place in a text whether its character's glyph and that of the next one stand where they do without a feature of
// GPOS, too.
function unmovedMarks(feature, text) {
  const bytes = fonts.font;
  const glyphsAt = glyphsByPlace(text);
  try {
    fonts.takeFont(withoutFeature(bytes, "GPOS", feature));
    const unmovedAt = glyphsByPlace(text);
    const keys = (glyphs) => glyphs.map(({ number, at }) => `${number} ${at}`).join();
    const isUnmoved = (place) => keys(glyphsAt(place)) === keys(unmovedAt(place));
    return (place) => isUnmoved(place) && isUnmoved(place + 1);
  } finally {
    fonts.takeFont(bytes);
  }
}

// ---- Drawing ----

function loadOutlines(glyphs) {
  const missing = [...new Set(glyphs.map((glyph) => glyph.number))].filter((number) => !outlines.has(number));
  if (missing.length) fonts.ask(`outline\n${missing.join(" ")}`).forEach((path, i) => outlines.set(missing[i], path));
}

// Of these glyphs those that the others don't have at the same place.
function withoutTwin(glyphs, others) {
  const left = new Map();
  const key = (glyph) => `${glyph.number} ${glyph.at}`;
  for (const other of others) left.set(key(other), (left.get(key(other)) ?? 0) + 1);
  return new Set(glyphs.filter((glyph) => {
    const count = left.get(key(glyph)) ?? 0;
    left.set(key(glyph), count - 1);
    return count <= 0;
  }));
}

function svg(name, attributes) {
  const element = document.createElementNS("http://www.w3.org/2000/svg", name);
  for (const [key, value] of Object.entries(attributes)) element.setAttribute(key, value);
  return element;
}

// A drawing of lines, one over the other: glyphs without a twin in their line's colour.
function drawn(lines, width) {
  const margin = metrics.units / 4;
  const [top, height] = [-Math.max(metrics.ascent, metrics.units) - margin, metrics.ascent - metrics.descent + 3 * margin];
  const box = [-margin, top, width + 2 * margin, height];
  const picture = svg("svg", { class: "outline", viewBox: box.join(" "), role: "img", "aria-label": "Outlines" });
  picture.style.maxWidth = `${(box[2] / metrics.units) * 60}px`;
  for (const { glyphs, others, colour } of lines) {
    loadOutlines(glyphs);
    const alone = withoutTwin(glyphs, others);
    for (const glyph of glyphs) {
      const attributes = { class: alone.has(glyph) ? colour : "same", transform: `translate(${glyph.at})` };
      picture.append(svg("path", { ...attributes, d: outlines.get(glyph.number) }));
    }
  }
  return picture;
}

function told(name, glyphs) {
  return made("p", {}, made("b", {}, name), " ", made("code", {}, glyphs.map((glyph) => glyph.number).join(" ")));
}

// The same text as the browser draws it in the font, in the direction that is chosen.
function showBrowsers(text) {
  by("browsers-word").textContent = text;
  by("browsers-word").dir = by("direction").value || "auto";
}

// Both lines, each alone and one over the other.
function showWithFont() {
  for (const id of ["word", "outlines"]) by(id).replaceChildren();
  by("broken").hidden = true;
  const text = [...by("text").value].slice(0, MOST_DRAWN).join("").toWellFormed();
  by("with-font").hidden = !metrics || text === "";
  if (by("with-font").hidden) return;
  try {
    const [stock, sengadlit] = [placed(ask("shape", "stock", text)), placed(ask("shape", "sengadlit", text))];
    const width = Math.max(widthOf(stock), widthOf(sengadlit));
    const lines = [{ glyphs: stock, others: sengadlit, colour: "stock" }, { glyphs: sengadlit, others: stock, colour: "sengadlit" }];
    const differ = Math.max(withoutTwin(stock, sengadlit).size, withoutTwin(sengadlit, stock).size);
    by("outlines").append(
      told("HarfRust 0.12.0: glyphs", stock), drawn(lines.slice(0, 1), width), told("Its copy with this project's fixes: glyphs", sengadlit), drawn(lines.slice(1), width),
      made("p", { id: "differ" }, differ ? `Glyphs that differ: ${differ}. One line over the other:` : "Both have the same glyphs at the same places."));
    if (differ) by("outlines").append(drawn(lines, width));
    by("word").append(drawn([{ glyphs: sengadlit, others: sengadlit, colour: "sengadlit" }], widthOf(sengadlit)));
    showWidth(text, widthOf(sengadlit));
    showBrowsers(text);
    if (text === by("text").value) answer(differ, sentencesOnTwoMarks(text, shown?.script ?? null, fonts.font));
  } catch (error) {
    by("outlines").append(`The program ended: ${error.message}`);
  }
}

// ---- A broken line ----

function showWidth(text, width) {
  by("width").max = width;
  by("width").value = Math.round(width / 2);
  by("broken").hidden = false;
  by("broken").text = text;
  showPieces();
}

// Each piece as it stands in the whole, and shaped alone.
function showPieces() {
  by("width-told").textContent = by("width").value;
  const pieces = ask("broken", "sengadlit", by("width").value, by("broken").text);
  by("pieces").replaceChildren(...pieces.map(({ whole, alone }) => {
    const [one, other] = [placed(whole), placed(alone)];
    const width = Math.max(widthOf(one), widthOf(other));
    const same = withoutTwin(one, other).size + withoutTwin(other, one).size === 0;
    return made("div", { class: "piece" },
      made("p", {}, `This piece as part of the whole text, and shaped alone: ${same ? "the same" : "they differ"}.`),
      drawn([{ glyphs: one, others: other, colour: "stock" }], width),
      drawn([{ glyphs: other, others: one, colour: "sengadlit" }], width));
  }));
}

by("width").addEventListener("input", showPieces);
by("font").addEventListener("change", () => takeFont(by("font").files[0]));
document.addEventListener("shown", showWithFont);
for (const kind of ["dragover", "dragleave", "drop"]) {
  window.addEventListener(kind, (event) => {
    event.preventDefault();
    by("drop").classList.toggle("over", kind === "dragover");
    if (kind === "drop") takeFont(event.dataTransfer.files[0]);
  });
}
started.then(() => takeSample(decoded(TEXTS.font)));
