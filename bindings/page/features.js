"use strict";
// What a text asks of a font's features, and what is seen where the font has none that would do it.
// A feature is missed only where the text's glyphs in the font show that nothing else does it.

// The scripts whose letters join. Of such a letter the shaper notes by a number which form it takes
// (HarfBuzz's arabic_action_t): the feature of that form, and what the letter does.
const JOINING = ["Adlm", "Arab", "Mand", "Mong", "Nkoo", "Syrc"];
const FORMS = {
  1: ["fina", "joins the letter before it"], 2: ["fin2", "ends a word"], 3: ["fin3", "ends a word"],
  4: ["medi", "joins the letters on both sides"], 5: ["med2", "joins the letter before it"],
  6: ["init", "joins the letter after it"],
};

// ---- What scripts ask ----

// The blocks of Indic scripts, in which letters that sound alike have the same places.
const INDIC = {
  Deva: 0x900, Beng: 0x980, Guru: 0xa00, Gujr: 0xa80, Orya: 0xb00, Taml: 0xb80, Telu: 0xc00,
  Knda: 0xc80, Mlym: 0xd00,
};

// Expressions of an Indic script's letters; `letter` matches any consonant, with its nukta.
function lettersOf(script) {
  const at = (place) => String.fromCodePoint((INDIC[script] ?? 0) + place);
  const [ka, ha, qa, yya, nukta] = [0x15, 0x39, 0x58, 0x5f, 0x3c].map(at);
  const [moreLetters, ra] = script === "Beng" ? ["\u09f0\u09f1", "[\u09b0\u09f0]"] : ["", at(0x30)];
  return {
    ka, ha, yya, nukta, ra, letter: `[${ka}-${ha}${qa}-${yya}${moreLetters}]${nukta}?`,
    virama: at(0x4d), ja: at(0x1c), nya: at(0x1e), ba: at(0x2c), ya: at(0x2f), va: at(0x35),
    ssa: at(0x37),
    // Letters without a stem at the right, mostly without a half form: NGA, CHA, TTA to DDHA, DA.
    round: `[${[0x19, 0x1b, 0x1f, 0x20, 0x21, 0x22, 0x26].map(at).join("")}]`,
  };
}

// What is seen.
const BELOW = "keeps its whole form instead of one below the letter before it";
const BESIDE = "keeps its whole form instead of one beside the letter before it";
const BEFORE = "keeps its whole form instead of one before the letter that it follows in the text";
const REPH = "isn't drawn as a reph, the sign that it has before another letter";
const JOINED = "isn't joined with the letter before it into the sign that is usual for both";
const WHOLE = "keeps its whole form, with the virama after it";
const SUBSCRIPT = "isn't drawn as a subscript";
const AT_LEFT =
  "keeps its whole form instead of its subscript, which stands at the left of the letter before it";
const TWICE = "keeps its whole form behind its left part, which may then be drawn twice";
const KINZI = "isn't drawn as a kinzi, the sign that it has above the letter after it";
const STARTS = "starts a word in the form for the middle of one, which may have a line at its left";

// RA below another letter.
const raBelow = ({ letter, virama, ra, nukta }) =>
  `(?<=(?!${ra})${letter}${virama})${ra}(?!${nukta})`;

// What is asked, by OpenType's specifications of the scripts: of which scripts; by which character,
// which is all that the expression matches; by which features, any of which would do, the usual
// one first; what is seen; of which letter that is told, this one (0), the one before it or the one
// after it; and what shows it, if not that the character keeps the glyphs which it has alone.
const ASKED = [
  [["Deva", "Beng", "Gujr", "Orya", "Knda"],
    ({ letter, virama, ra }) => `(?<!${virama}\u200d?)${ra}(?=${virama}${letter})`,
    ["rphf"], REPH, 0, standsFirst],
  [["Sinh"], () => "\u0dbb(?=\u0dca\u200d[\u0d9a-\u0dc6])", ["rphf"], REPH, 0, standsFirst],
  [["Deva", "Gujr"], raBelow, ["rkrf", "blwf", "vatu"], BELOW],
  [["Beng"], raBelow, ["blwf", "rkrf", "vatu"], BELOW],
  [["Guru"],
    ({ letter, virama, ra, ha, va }) => `(?<=${letter}${virama})(?:${ra}|${ha}|${va})`,
    ["blwf", "rkrf", "vatu"], BELOW],
  [["Beng"],
    ({ letter, virama, ra, ba }) => `(?<=(?!${ra}|${ba})${letter}${virama})${ba}`,
    ["blwf"], BELOW],
  [["Telu", "Knda", "Orya"],
    ({ letter, virama, ra, ya, yya }) =>
      `(?<=(?!${ra})${letter}${virama})(?!${ya}|${yya})${letter}`,
    ["blwf"], BELOW],
  [["Beng", "Guru"],
    ({ letter, virama, ra, ya, nukta }) =>
      `(?<=(?!${ra}|${ya})${letter}${virama})${ya}(?!${nukta})`,
    ["pstf"], BESIDE],
  [["Orya"],
    ({ letter, virama, ra, yya }) => `(?<=(?!${ra})${letter}${virama})${yya}`,
    ["pstf"], BESIDE],
  [["Mlym"],
    ({ letter, virama, ya, va }) =>
      `(?<=(?!${ya})${letter}${virama})${ya}|(?<=(?!${va})${letter}${virama})${va}`,
    ["pstf"], BESIDE],
  [["Mlym"],
    ({ letter, virama, ra }) => `(?<=(?!${ra})${letter}${virama})${ra}`,
    ["pref"], BEFORE],
  [["Deva", "Beng", "Gujr", "Taml"],
    ({ ka, ssa, ja, nya, virama }) => `(?<=${ka}${virama})${ssa}|(?<=${ja}${virama})${nya}`,
    ["akhn"], JOINED],
  [["Deva", "Gujr"],
    ({ letter, virama, ra, round }) =>
      `(?<=(?!${ra}|${round})${letter})${virama}(?=\u200d?(?!${ra})${letter})`,
    ["half"], WHOLE, -1],
  [["Beng"],
    ({ letter, virama, ra, ya }) =>
      `(?<=(?!${ra})${letter})${virama}(?=\u200d?(?!${ra}|${ya})${letter})`,
    ["half"], WHOLE, -1],
  [["Beng"],
    ({ letter, virama }) =>
      `(?<=(?<![\\p{L}\\p{M}\\p{Cf}])(?:${letter}${virama})*${letter})[\u09c7\u09c8\u09cb\u09cc]`,
    ["init"], STARTS],
  [["Khmr"], () => "(?<=\\p{Lo})\u17d2(?=\u179a)", ["pref"], AT_LEFT, 1, keepsBoth],
  // KHO, CHO, BA, YO and SA have subscripts that rise beside the letter.
  [["Khmr"],
    () => "(?<=\\p{Lo})\u17d2(?=[\u1783\u1788\u1794\u1799\u179f])",
    ["pstf"], SUBSCRIPT, 1],
  [["Khmr"],
    () => "(?<=\\p{Lo})\u17d2(?![\u1783\u1788\u1794\u1799\u179a\u179f])(?=[\u1780-\u17a2])",
    ["blwf"], SUBSCRIPT, 1],
  [["Khmr"], () => "\u17be", ["abvf"], TWICE],
  [["Khmr"], () => "[\u17bf\u17c0\u17c4\u17c5]", ["pstf"], TWICE],
  [["Mymr"], () => "(?<=[\u1004\u101b\u105a]\u103a)\u1039(?=\\p{Lo})", ["rphf"], KINZI, -1],
  [["Mymr"], () => "(?<=\\p{Lo})\u1039(?=\\p{Lo})", ["blwf"], SUBSCRIPT, 1],
  [["Bali"], () => "(?<=\\p{Lo}\u1b34?)\u1b44(?=\\p{Lo})", ["blwf"], SUBSCRIPT, 1],
  [["Java"], () => "(?<=\\p{Lo}\ua9b3?)\ua9c0(?=\\p{Lo})", ["blwf"], SUBSCRIPT, 1],
];

// ---- What the font shows ----

// That a font has none of some features, in words; null where it has one.
function lackInWords(lookups, features, script) {
  if (features.some((feature) => lookups?.usual.has(feature))) return null;
  const name = plainName(script);
  const quoted = (tags) =>
    `feature${tags.length > 1 ? "s" : ""} ${listed(tags.map((tag) => `“${tag}”`))}`;
  const elsewhere = features.filter((feature) => lookups?.any.has(feature));
  if (elsewhere.length) return `It has the ${quoted(elsewhere)} for some languages of ${name} alone`;
  if (features.length === 1) return `It has no ${quoted(features)} for ${name}`;
  return `It has none of the ${quoted(features)} for ${name}, any one of which would do`;
}

// The glyphs that the characters of a text have alone, and those with which it is drawn in the font,
// each in their order and by the places of their characters.
function glyphsInFont(text) {
  const steps = shapedText(text, UNMERGED)?.steps ?? [];
  const [own, row] = [steps[0], steps.at(-1)].map(glyphsOf);
  const byPlace = (glyphs) => Map.groupBy(glyphs, ({ cluster }) => cluster);
  return { own, row, alone: byPlace(own), drawn: byPlace(row) };
}

// Whether the character at a place is drawn with the glyphs that it has alone.
function keepsGlyphs({ alone, drawn }, place) {
  const numbers = (drawn.get(place) ?? []).map(({ number }) => number);
  const own = alone.get(place) ?? [];
  const isKept = ({ number }) => number !== "0000" && numbers.includes(number);
  return own.length > 0 && own.every(isKept);
}

// Whether the characters at a place and after it are both drawn so.
function keepsBoth(inFont, place) {
  return keepsGlyphs(inFont, place) && keepsGlyphs(inFont, place + 1);
}

// Whether the glyph of the character at a place takes room, and stands before that of one of the
// two characters after it.
function standsFirst({ row }, place) {
  const found = row.findIndex(({ cluster }) => cluster === place);
  const next = row[found + 1]?.cluster;
  const isFirst = found >= 0 && next > place && next <= place + 2;
  return isFirst && row[found].number !== "0000" && row[found].advance > 0;
}

// ---- Substitutions ----

// A character in a sentence, and which one of the text it is.
const toldAt = (characters, place) => `${named(characters[place])}, ${nthCharacter(place + 1)}`;

// The place of the letter at a place, before it (passing over marks) or after it.
function letterBeside(characters, place, side) {
  let found = place + side;
  while (side < 0 && /\p{M}/u.test(characters[found] ?? "")) found -= 1;
  return found;
}

// The places of the characters that an expression matches.
function matchedPlaces(text, pattern) {
  let [place, last] = [0, 0];
  return [...text.matchAll(new RegExp(pattern, "gu"))].map(({ index }) => {
    place += [...text.slice(last, index)].length;
    last = index;
    return place;
  });
}

// What a script asks and the font lacks: of each feature the first place in the text.
function sentencesOnScript(text, script, gsub, inFont) {
  const characters = [...text];
  const asked = ASKED.filter(([scripts]) => scripts.includes(script));
  return asked.flatMap(([, pattern, features, seen, side = 0, isSeen = keepsGlyphs]) => {
    const lack = lackInWords(gsub, features, script);
    const places = lack ? matchedPlaces(text, pattern(lettersOf(script))) : [];
    const place = places.find((place) => isSeen(inFont(), place));
    if (place === undefined) return [];
    return [`${lack}, so ${toldAt(characters, letterBeside(characters, place, side))}, ${seen}.`];
  });
}

// The letters that join and keep the form that they have alone: of each form the first letter.
function sentencesOnForms(text, script, gsub, inFont) {
  if (!JOINING.includes(script)) return [];
  const characters = [...text];
  // (a tatweel has one form alone, and is no letter of these kinds)
  const isLetter = (place) => /[\p{Lo}\p{Lu}\p{Ll}]/u.test(characters[place]);
  return Object.entries(FORMS).flatMap(([form, [feature, does]]) => {
    const lack = lackInWords(gsub, [feature], script);
    const glyphs = lack ? inFont().own.filter(({ noted }) => noted === form) : [];
    const places = glyphs.map(({ cluster }) => cluster);
    const kept = places.filter((place) => isLetter(place) && keepsGlyphs(inFont(), place));
    if (kept.length === 0) return [];
    const told = toldAt(characters, Math.min(...kept));
    return [`${lack}, so ${told}, which ${does}, keeps the form that it has alone.`];
  });
}

// ---- Marks ----

// The features that place a mark on a letter.
const PLACING = ["mark", "abvm", "blwm"];
// Marks that are drawn through a letter, and characters that only tell of a subscript.
const UNPLACED =
  /[\u0334-\u0338\u1039\u17d2\u1a60\u1bab\u20d2\u20d3\u20d8-\u20da\u20e5\u20e6\u20ea\u20eb]/u;
const isPlaced = (c) => /\p{Mn}/u.test(c ?? "") && !isInvisible(c) && !UNPLACED.test(c);

// How wide a glyph is in the font, whatever width a shaper leaves it; 0 where that can't be read.
function widthInFont(bytes, number) {
  try {
    const view = new DataView(bytes.buffer, bytes.byteOffset, bytes.byteLength);
    const count = view.getUint16(tableAt(bytes, "hhea") + 34);
    return view.getUint16(tableAt(bytes, "hmtx") + 4 * Math.min(number, count - 1));
  } catch {
    return 0;
  }
}

// The first mark that no feature places, where it has a glyph of its own. One without a width is drawn
// over the end of the letter by its outline, which is how some fonts are made.
function findingsOfMarks(text, script, gpos, bytes, inFont) {
  const characters = [...text];
  const lack = lackInWords(gpos, PLACING, script);
  if (!lack || !characters.some(isPlaced)) return [];
  const place = characters.findIndex((c, i) => isPlaced(c) && keepsGlyphs(inFont(), i));
  if (place < 0) return [];
  const so = `${lack}, so ${toldAt(characters, place)},`;
  const isWide = ({ number }) => widthInFont(bytes, parseInt(number, 16)) > 0;
  if (inFont().alone.get(place).some(isWide))
    return [finding("font", `${so} may not stand where its letter needs it.`)];
  if (inFont().drawn.get(place).some(({ offset }) => offset !== 0)) return [];
  return [finding("font", `${so} stands at the same distance from the end of every letter.`, false)];
}

// The first mark that is drawn over the one before it (font.js), in a font that places marks on
// letters and not on marks; or whose feature for that doesn't move the two.
function sentencesOnTwoMarks(text, script, bytes) {
  const gpos = script && safeLookupsOf(bytes, "GPOS", script);
  if (!gpos || lackInWords(gpos, PLACING, script)) return [];
  const lack = lackInWords(gpos, ["mkmk"], script);
  const characters = [...text];
  const isPair = (c, next) => isPlaced(c) && isPlaced(next) && c !== next;
  const pairs = characters.flatMap((c, i) => (isPair(c, characters[i + 1]) ? [i] : []));
  if (pairs.length === 0) return [];
  const isCovering = coveringMarks(text);
  let isUnmoved = lack ? () => true : null;
  const isTold = (place) => isCovering(place) && (isUnmoved ??= unmovedMarks("mkmk", text))(place);
  const place = pairs.find(isTold);
  if (place === undefined) return [];
  const [first, second] = [named(characters[place]), toldAt(characters, place + 1)];
  const seen = `${first} and ${second}, are drawn over each other`;
  if (lack) return [`${lack}, which places one mark on another, so ${seen}.`];
  return [`${seen}; the font has the feature “mkmk”, which doesn't move these two.`];
}

// What a text asks of a font's features and the font lacks; but for two marks, which need outlines.
function findingsOfFeatures(text, script, gsub, gpos, bytes) {
  let shapedOnce = null;
  const inFont = () => (shapedOnce ??= glyphsInFont(text));
  const kinds = gsub ? [sentencesOnForms, sentencesOnScript] : [];
  const sentences = kinds.flatMap((sentencesOn) => sentencesOn(text, script, gsub, inFont));
  const found = sentences.map((sentence) => finding("font", sentence));
  return [...found, ...findingsOfMarks(text, script, gpos, bytes, inFont)];
}
