"use strict";
// Whose a difference is: what is unusual in the text, what the font lacks, and where a shaper draws otherwise, in sentences.

// The tags by which a font has a script, where they aren't its code in small letters.
const TAGS = {
  Beng: ["bng3", "bng2", "beng"], Deva: ["dev3", "dev2", "deva"], Gujr: ["gjr3", "gjr2", "gujr"], Guru: ["gur3", "gur2", "guru"],
  Knda: ["knd3", "knd2", "knda"], Mlym: ["mlm3", "mlm2", "mlym"], Mymr: ["mym2", "mymr"], Orya: ["ory3", "ory2", "orya"],
  Taml: ["tml3", "tml2", "taml"], Telu: ["tel3", "tel2", "telu"], Laoo: ["lao "], Nkoo: ["nko "],
};
// What HarfRust 0.12.0 is known to do to texts: of a script, with these characters in them.
const SHAPER_FAULTS = [
  ["Thai", /[\u0e31\u0e34-\u0e37\u0e47-\u0e4e]{2,}\u0e33/u, "Before SARA AM it draws one mark twice and loses another."],
  ["Laoo", /[\u0eb1\u0eb4-\u0eb7\u0ebb\u0ec8-\u0ecd]{2,}\u0eb3/u, "Before SARA AM it draws one mark twice and loses another."],
  ["Hebr", /\u05d9\u05b7/u, "In a font without marks in GPOS it draws YOD with PATAH as two YODs."],
  ["Beng", /[\p{Cc}\u09bf]/u, "After a control character or a dotted circle it draws a vowel sign in the form for the middle of a word."],
  ["Orya", /\u0b4d/u, "It takes rules with context into account when it looks for the base, so that another letter becomes the base."],
];

// The tags at which a font is looked for where it has none of the script's.
const DEFAULTS = ["DFLT", "dflt", "latn"];

// How many characters are looked for in the font one by one.
const MOST_ALONE = 100;

// What was found: whose it is, and what; and whether it is why the word may look wrong.
const finding = (whose, text, isFault = true) => ({ whose, text, isFault });

const codeOf = (c) => `U+${c.codePointAt(0).toString(16).toUpperCase().padStart(4, "0")}`;
// A character in a sentence, between the signs that sentenceParts reads.
const shownIn = (c) => `\u2068${/\p{M}/u.test(c) ? "\u25cc" + c : c}\u2069`;
const isInvisible = (c) => /\p{Default_Ignorable_Code_Point}/u.test(c);
const isDrawn = (c) => c !== undefined && !isInvisible(c) && !/[\p{Cc}\p{Cs}\p{Z}]/u.test(c);
const named = (c) => (isDrawn(c) ? `${shownIn(c)} (${codeOf(c)})` : codeOf(c));

// The glyphs that a step prints: their numbers, the places of their characters, what the shaper notes of them, and where they are
// drawn, if it tells that.
function glyphsOf(step) {
  const rows = (step?.printed ?? "").split("\n").filter((line) => line !== "").map((line) => line.split(" "));
  return rows.map(([number, cluster, , , , noted, , advance, offset]) => ({
    number, cluster: Number(cluster), noted, advance: Number(advance), offset: Number(offset),
  }));
}

// ---- The text ----

// The first mark that Unicode's order of marks puts elsewhere, unless the script's own order (as Hebrew's) leaves it there.
function misplacedMark(text, steps) {
  const normalized = steps.find((step) => step.heads[0] === "ot_shape_normalize");
  if (normalized && !normalized.told.includes(" moved ")) return null;
  const typed = [...text].map((c) => c.normalize("NFD")).join("");
  const usual = text.normalize("NFD");
  const place = [...typed].findIndex((c, i) => c !== [...usual][i]);
  return place < 0 ? null : [[...typed][place], [...usual][place]];
}

// The cluster level at which no clusters merge: there a dotted circle has the place of the character for which it is drawn.
const UNMERGED = "2";
// How many broken syllables are told one by one.
const MOST_BROKEN = 3;

// The places of these circles among a text's glyphs, but for circles that are typed.
function circledPlaces(text, glyphs, circle) {
  const characters = [...text];
  const places = glyphs.filter(({ number }) => number === circle).map(({ cluster }) => cluster);
  return [...new Set(places)].filter((place) => (characters[place] ?? "\u25cc") !== "\u25cc").sort((a, b) => a - b);
}

// The places of the characters before which the script's rules put a dotted circle.
function brokenPlaces(text, shown) {
  if (!glyphsOf(shown?.steps.at(-1)).some(({ number }) => number === "25cc")) return [];
  return circledPlaces(text, glyphsOf(stepsAt(UNMERGED, text)?.steps.at(-1)), "25cc");
}

// The places of the characters before which a dotted circle is drawn in the font; null where the font has none.
function drawnPlaces(text) {
  const circle = glyphsOf(shapedText("\u25cc")?.steps.at(-1))[0]?.number ?? "0000";
  return circle === "0000" ? null : circledPlaces(text, (shapedText(text, UNMERGED)?.steps ?? []).flatMap(glyphsOf), circle);
}

const ordinal = (number) => number + (/1[123]$/.test(number) ? "th" : { 1: "st", 2: "nd", 3: "rd" }[number % 10] ?? "th");
const nthCharacter = (number) => `the ${ordinal(number)} character`;

// What is told of broken syllables, and of a mark at the start, which may be one.
function brokenSentences(text, shown) {
  const characters = [...text];
  const broken = brokenPlaces(text, shown);
  const drawn = broken.length ? drawnPlaces(text) : [];
  const isMark = /^\p{M}/u.test(text) && isDrawn(characters[0]);
  const circleOf = (place) => {
    if (drawn === null && broken.includes(place)) return "; a dotted circle belongs there, which this font doesn't have.";
    return drawn?.includes(place) ? ", so a dotted circle is drawn for it." : ".";
  };
  const sentences = isMark ? [`It begins with a mark that has no letter: ${named(characters[0])}${circleOf(0)}`] : [];
  const others = broken.filter((place) => place > 0 || !isMark);
  for (const place of others.slice(0, MOST_BROKEN)) {
    const why = place === 0 ? "can't stand alone" : "can't follow what stands before it";
    sentences.push(`It has a broken syllable: ${named(characters[place])}, ${nthCharacter(place + 1)}, ${why}${circleOf(place)}`);
  }
  if (others.length > MOST_BROKEN) sentences.push(`It has ${others.length} broken syllables in all.`);
  return sentences;
}

// The characters of the text that the script has drawn before what they follow.
function movedCharacters(text, steps) {
  const reorderings = steps.filter((step) => /reorder|preprocess/.test(step.heads[0]));
  const moves = reorderings.flatMap((step) => [...step.told.matchAll(/([0-9A-F]{4,6}) moved from place (\d+) to place (\d+)/gi)]);
  const forward = moves.filter(([, , from, to]) => Number(to) < Number(from));
  return [...new Set(forward.map(([, number]) => String.fromCodePoint(parseInt(number, 16))))].filter((c) => text.includes(c));
}

// Of these characters those that are drawn in the font before what they follow in the text.
function movedInFont(text, moved) {
  if (moved.length === 0) return [];
  const characters = [...text];
  const rows = (shapedText(text, UNMERGED)?.steps ?? []).map((step) => glyphsOf(step).map(({ cluster }) => cluster));
  const early = new Set();
  for (const row of rows) row.reduceRight((least, place) => {
    if (place > least) early.add(characters[place]);
    return Math.min(least, place);
  }, Infinity);
  return moved.filter((c) => early.has(c));
}

function findingsOfText(text, shown, bytes) {
  const isOwn = withoutShaper(shown?.script ?? null, shown, bytes) === null;
  const found = [];
  if (/\p{Cc}/u.test(text)) found.push(finding("text", "It has a control character, such as a TAB or the end of a line. A box in the picture is the font's glyph for a character that it lacks. Try each line or column alone."));
  const mark = misplacedMark(text, shown?.steps ?? []);
  if (mark) found.push(finding("text", `Its marks stand in an unusual order: ${named(mark[0])} stands where ${named(mark[1])} is usual. The word is drawn in the usual order.`));
  found.push(...pairSentences(text, mark).map((sentence) => finding("text", sentence)));
  found.push(...invisibleSentences(text).map((sentence) => finding("text", sentence, false)));
  found.push(...brokenSentences(text, isOwn ? shown : null).map((sentence) => finding("text", sentence)));
  return found;
}

// Characters that aren't drawn themselves, and only tell that the letter after them is a subscript.
const isSubscriptSign = (c) => /[\u1039\u17d2\u1a60]/u.test(c);

// What the script draws before the letters that it follows; but for what these findings tell a fault of.
function findingsOfScript(text, shown, bytes, findings) {
  const isOwn = withoutShaper(shown?.script ?? null, shown, bytes) === null;
  const faults = findings.filter(({ isFault }) => isFault).map(({ text }) => text).join();
  const isTold = (c) => isSubscriptSign(c) || faults.includes(shownIn(c));
  const moved = movedInFont(text, isOwn ? movedCharacters(text, shown?.steps ?? []) : []).filter((c) => !isTold(c));
  if (moved.length === 0) return [];
  const [are, follow] = moved.length === 1 ? ["is", "it follows"] : ["are", "they follow"];
  return [finding("script", `${listed(moved.map(named))} ${are} drawn before the letters that ${follow} in the text; that is how the script is written.`, false)];
}

// Characters that aren't drawn: their names in Unicode, and what they do.
const INVISIBLE = {
  "\u00ad": ["SOFT HYPHEN", "is drawn only where a line ends"], "\u034f": ["COMBINING GRAPHEME JOINER", "keeps marks in the order in which they are typed"],
  "\u061c": ["ARABIC LETTER MARK", "sets the direction beside it"], "\u200b": ["ZERO WIDTH SPACE", "lets a line end"],
  "\u180e": ["MONGOLIAN VOWEL SEPARATOR", "sets the last vowel apart"],
  "\u200c": ["ZERO WIDTH NON-JOINER", "keeps apart letters that would join"], "\u200d": ["ZERO WIDTH JOINER", "asks for the forms of joined letters"],
  "\u200e": ["LEFT-TO-RIGHT MARK", "sets the direction beside it"], "\u200f": ["RIGHT-TO-LEFT MARK", "sets the direction beside it"],
  "\u2060": ["WORD JOINER", "keeps a line from ending"], "\ufeff": ["ZERO WIDTH NO-BREAK SPACE", "keeps a line from ending"],
};
// How many places of an invisible character are told.
const MOST_PLACES = 4;

// Each invisible character, and behind which characters it stands.
function invisibleSentences(text) {
  const characters = [...text];
  return [...new Set(characters.filter(isInvisible))].map((c) => {
    const [name, effect] = INVISIBLE[c] ?? ["character that isn't drawn", null];
    const all = characters.flatMap((other, i) => (other === c ? [i] : []));
    const places = all.slice(0, MOST_PLACES).map((i) => {
      if (i === 0) return "at the start";
      return `after ${isDrawn(characters[i - 1]) ? shownIn(characters[i - 1]) : nthCharacter(i)}`;
    });
    if (all.length > MOST_PLACES) places.push("elsewhere");
    const article = /^[AEIOU]/.test(name) ? "an" : "a";
    return `It has ${article} ${name} (${codeOf(c)}) ${listed([...new Set(places)])}${effect ? `, which ${effect}` : ""}.`;
  });
}

// Items as one writes them in a sentence.
const listed = (items) => (items.length < 2 ? items.join("") : `${items.slice(0, -1).join(", ")} and ${items.at(-1)}`);

// A vowel sign before a nukta: the blocks of these scripts, from Devanagari to Kannada, have them at the same places.
const BLOCKS = [0x900, 0x980, 0xa00, 0xa80, 0xb00, 0xc00, 0xc80];
const SIGN_AND_NUKTA = new RegExp(BLOCKS.map((block) => {
  const [first, last, length, lastLength, vocalic, lastVocalic, nukta] = [0x3e, 0x4c, 0x55, 0x57, 0x62, 0x63, 0x3c].map((place) => String.fromCodePoint(block + place));
  return `[${first}-${last}${length}-${lastLength}${vocalic}-${lastVocalic}](?=${nukta})`;
}).join("|"), "u");

// Pairs of characters that a script has in another order, or as one character: what is told of the pair, and which characters
// of the text it has. (The Unicode Standard, chapters 12 and 16.)
const PAIRS = [
  [/[\u0e48-\u0e4b](?=[\u0e31\u0e34-\u0e39\u0e4d])|[\u0ec8-\u0ecb](?=[\u0eb1\u0eb4-\u0eb9\u0ebb\u0ecd])/u,
    (first, second, nth) => `${first}, ${nth}, stands before ${second}: a tone is typed after the sign above or below the letter.`],
  [/\u0e40(?=\u0e40)/u, (first, _, nth) => `${first}, ${nth}, stands twice: SARA AE (${shownIn("\u0e41")}, U+0E41) looks the same, but is one character.`],
  [/\u0ec0(?=\u0ec0)/u, (first, _, nth) => `${first}, ${nth}, stands twice: the vowel sign EI (${shownIn("\u0ec1")}, U+0EC1) looks the same, but is one character.`],
  [SIGN_AND_NUKTA,
    (first, second, _, next) => `${second}, ${next}, stands after ${first}: a nukta is typed right after its letter, before the vowel sign.`],
  [/[\u093e-\u094c\u0955-\u0957\u0962\u0963](?=\u094d)/u,
    (first, second, _, next) => `${second}, ${next}, stands after ${first}: a virama is typed right after its letter, before any vowel sign.`],
  [/[\u17b6-\u17c5](?=\u17d2)/u,
    (first, second, _, next) => `${second}, ${next}, stands after ${first}: a subscript is typed before the vowel sign.`],
];

// What such pairs are in a text, but for one that is told of already.
function pairSentences(text, mark) {
  return PAIRS.flatMap(([pair, tell]) => {
    const found = pair.exec(text);
    if (!found) return [];
    const [place, first] = [[...text.slice(0, found.index)].length + 1, found[0]];
    const second = [...text][place];
    return mark?.[0] === first && mark[1] === second ? [] : [tell(named(first), named(second), nthCharacter(place), nthCharacter(place + 1))];
  });
}

// ---- The font ----

const tagsOf = (script) => TAGS[script] ?? [script.toLowerCase()];

// Where a table of a font begins; undefined where the font has none.
function tableAt(bytes, name) {
  const view = new DataView(bytes.buffer, bytes.byteOffset, bytes.byteLength);
  const tag = (at) => String.fromCharCode(...bytes.subarray(at, at + 4));
  const start = tag(0) === "ttcf" ? view.getUint32(12) : 0;
  const records = Array.from({ length: view.getUint16(start + 4) }, (_, i) => start + 12 + 16 * i);
  return records.filter((record) => tag(record) === name).map((record) => view.getUint32(record + 8))[0];
}

// The tag by which a script's lookups are found in a table, and their features: those of the usual language, and those of any.
// It is null where the font has no such table, or nothing for the script.
function lookupsOf(bytes, table, script) {
  const view = new DataView(bytes.buffer, bytes.byteOffset, bytes.byteLength);
  const tag = (at) => String.fromCharCode(...bytes.subarray(at, at + 4));
  const records = (at, size) => Array.from({ length: view.getUint16(at) }, (_, i) => at + 2 + size * i);
  const at = tableAt(bytes, table);
  if (at === undefined) return null;
  const scripts = at + view.getUint16(at + 4);
  const wanted = [...tagsOf(script), ...DEFAULTS];
  const found = wanted.map((name) => records(scripts, 6).find((record) => tag(record) === name)).find((record) => record !== undefined);
  if (found === undefined) return null;
  const entry = scripts + view.getUint16(found + 4);
  const list = at + view.getUint16(at + 6);
  // (where a language has the number of the feature that it requires, and those of the others)
  const placesOf = (language) => [language + 2, ...records(language + 4, 2)];
  const featuresIn = (languages) => {
    const numbers = languages.filter((offset) => offset !== 0).flatMap((offset) => placesOf(entry + offset).map((place) => view.getUint16(place)));
    return new Set(numbers.filter((number) => number !== 0xffff).map((number) => tag(list + 2 + 6 * number)));
  };
  const usual = view.getUint16(entry);
  const others = records(entry + 2, 6).map((record) => view.getUint16(record + 4));
  return { tag: tag(found), usual: featuresIn([usual]), any: featuresIn([usual, ...others]) };
}

// The same, of a font whose table can't be read too: null.
function safeLookupsOf(bytes, table, script) {
  try {
    return lookupsOf(bytes, table, script);
  } catch {
    return null;
  }
}

// A copy of a font in which a table's feature has a tag that no shaper asks for.
function withoutFeature(bytes, table, feature) {
  const copy = bytes.slice();
  const view = new DataView(copy.buffer);
  const at = tableAt(copy, table);
  const list = at + view.getUint16(at + 6);
  for (let i = 0; i < view.getUint16(list); i += 1) {
    const record = list + 2 + 6 * i;
    if (String.fromCharCode(...copy.subarray(record, record + 4)) === feature) copy.fill(0x7a, record, record + 4);
  }
  return copy;
}

// What a script's shaper does, where it takes no text in a font that has lookups for other scripts or for the default one
// alone (HarfBuzz's hb_ot_shaper_categorize); null where the shaper takes the text in any font.
function boundTo(script, shown) {
  if (script === "Syrc" || ["Adlm", "Mand", "Mong", "Nkoo"].includes(script)) return "letters don't join";
  const isBound = shown?.steps.some(({ heads }) => /setup_syllables_(indic|use|myanmar)/.test(heads[0]));
  return isBound ? "vowels aren't moved and the script's forms aren't made" : null;
}

// What the script's own shaper would do, where it doesn't take the text in this font; or else null.
function withoutShaper(script, shown, bytes) {
  const tag = script && safeLookupsOf(bytes, "GSUB", script)?.tag;
  return tag === "DFLT" || tag === "latn" || tag === "mymr" ? boundTo(script, shown) : null;
}

// The characters without a glyph: each is shaped alone, since marks share the place of their letter.
function lackingCharacters(text, shaped) {
  const lacks = (steps) => glyphsOf(steps?.steps.at(-1)).some(({ number }) => number === "0000");
  const characters = [...new Set(text)].filter((c) => !/[\p{Cc}\p{Cf}]/u.test(c)).slice(0, MOST_ALONE);
  return lacks(shaped) ? characters.filter((c) => lacks(shapedText(c))) : [];
}

// Which features a font has for a script; nothing where it has none.
function featuresInWords(gsub, gpos) {
  const [substitute, move] = [gsub, gpos].map((lookups) => listed([...(lookups?.any ?? [])].map((tag) => tag.trim()).sort()));
  const parts = [substitute && `${substitute}, which can substitute glyphs`, move && `${move}, which can move glyphs`];
  return parts.filter((part) => part).join("; and ");
}

function findingsOfFont(text, shown, bytes, shaped) {
  const found = [];
  const script = shown?.script ?? null;
  const lacking = lackingCharacters(text, shaped);
  if (lacking.length) found.push(finding("font", `It has no glyph for ${lacking.slice(0, 8).map(named).join(", ")}${lacking.length > 8 ? " and others" : ""}.`));
  if (!script || lacking.length === new Set(text).size) return found;
  const [name, tags] = [scriptName(script), tagsOf(script).filter((tag) => tag !== "mymr")];
  const undone = withoutShaper(script, shown, bytes);
  if (undone) {
    found.push(finding("font", `It has lookups, but not for ${plainName(script)} (${tags.length > 1 ? "tags" : "tag"} ${tags.map((tag) => tag.trim()).join(", ")}). So ${undone}.`));
    return found;
  }
  const [gsub, gpos] = ["GSUB", "GPOS"].map((table) => safeLookupsOf(bytes, table, script));
  const isSimple = script === "Hebr" || script === "Hang" || script === "Thai" || script === "Laoo";
  if (!gsub && !isSimple) found.push(finding("font", `It has no substitutions for ${name}, so letters don't take the forms that the script needs.`));
  // (a text is shaped as far as it is shown)
  found.push(...findingsOfFeatures([...text].slice(0, shown.most).join(""), script, gsub, gpos, bytes));
  const features = featuresInWords(gsub, gpos);
  if (features) found.push(finding("font", `For ${name} it has the features ${features}. Not all of them are on in every text or language. If a form is missing in the picture, the font may lack its feature.`, false));
  return found;
}

// ---- Shapers ----

// What HarfRust draws otherwise in the font, by the number of glyphs that differ; null where it isn't known yet.
function findingsOfShapers(text, script, differ) {
  if (differ === null) return [];
  if (differ === 0) return [finding("shapers", "HarfRust 0.12.0 and its copy with this project's fixes draw the word alike. Both descend from HarfBuzz, so a fault that all share wouldn't show.", false)];
  const known = SHAPER_FAULTS.find(([of, characters]) => of === script && characters.test(text));
  const count = differ === 1 ? "one glyph" : `${differ} glyphs`;
  return [finding("shapers", `HarfRust 0.12.0 draws ${count} differently from its copy with this project's fixes, with the same text and font; both are drawn below. ${known ? known[2] : "This page doesn't know the reason."}`)];
}

// ---- The answer ----

const WHOSE = { text: "The text", font: "The font", shapers: "The shapers", script: "The script" };

// What is found in a text and its font.
function findingsOf(text, shown, shaped, bytes) {
  const [ofText, ofFont] = [findingsOfText(text, shown, bytes), findingsOfFont(text, shown, bytes, shaped)];
  return [...ofText, ...findingsOfScript(text, shown, bytes, [...ofText, ...ofFont]), ...ofFont];
}

// A sentence, whose characters are drawn in the chosen font where it has them.
const sentenceParts = (text) => text.split(/\u2068([^\u2069]*)\u2069/u).map((part, i) => (i % 2 ? made("bdi", { class: "character", lang: "" }, part) : part));

// A mark behind a vowel sign that takes room; and RA before a virama and a letter, which is drawn as a reph.
const UNMEASURED = /\p{Mc}\p{Mn}|[\u0930\u09b0\u0ab0\u0b30\u0cb0][\u094d\u09cd\u0acd\u0b4d\u0ccd]\p{Lo}/u;

// What is told of a text without a fault.
function noneFound(text) {
  const sentences = ["This page found none of the faults that it knows. Not every unusual order of characters is among them, and the page can't tell what the font's lookups should do."];
  if (UNMEASURED.test(text)) sentences.push("It doesn't look at whether a mark is drawn over a vowel sign beside its letter, or over a reph.");
  return [...sentences, "If the word still looks wrong, look below for the first step in which it does."].join(" ");
}

// Shows the sentences: what was found in a text and its font, and what differs between shapers.
function showAnswer(text, findings, script, differ) {
  const found = text === "" ? [] : [...findings, ...findingsOfShapers(text, script, differ)];
  found.sort((a, b) => Number(b.isFault) - Number(a.isFault));
  const sentences = found.map(({ whose, text, isFault }) => made("li", { class: isFault ? "fault" : "fine", "data-whose": whose }, made("b", {}, WHOSE[whose] + ": "), ...sentenceParts(text)));
  if (text !== "" && !found.some(({ isFault }) => isFault))
    sentences.unshift(made("li", { class: "fine" }, noneFound(text)));
  by("findings").replaceChildren(...sentences);
}

// ---- Headings ----

const HEADINGS = [
  [/^text( |$)/, "The text"], [/^set_unicode_properties$/, "Characters get their properties"],
  [/^insert_dotted_circle$/, "A mark without a letter gets a dotted circle"], [/^form_clusters$/, "Marks are kept with their letters"],
  [/^ensure_native_direction$/, "The text is put into its script's direction"], [/^rotate_chars$/, "Characters are mirrored or rotated"],
  [/^ot_shape_normalize$/, "Characters are decomposed, sorted and composed"], [/^set_fractions$/, "Fractions are found"],
  [/^map_glyphs$/, "Characters become glyphs"], [/vowel/, "Vowels that look like others get a dotted circle"],
  [/^flag_zwnj_graphemes$/, "Breaks around joiners are flagged"],
  [/^(run )?preprocess/, "The script's own characters are prepared"], [/^initialize_masks$/, "Features of the whole text are chosen"],
  [/^(run |setup_)masks/, "Glyphs get their features and forms"],
  [/^run marks/, "Marks are sorted as the script needs"], [/^run pause setup_syllables/, "Syllables are found"],
  [/^run pause (reorder_|initial_reordering)/, "Glyphs are put into the order in which they are drawn"],
  [/^run pause final_reordering/, "Glyphs are put into their last order"], [/^run pause record_(rphf|pref)/, "What the font formed is noted"],
  [/^run pause record_stch/, "Marks that stretch are noted"], [/^run pause arabic_fallback/, "Unicode's own forms are used where the font has none"],
  [/^run pause (clear|syllabic)/, "What was noted is cleared"], [/^run postprocess/, "Marks are stretched over their words"],
  [/^before lookups$/, "Before the font's lookups"], [/^lookup \d+ of GSUB$/, "The font substitutes glyphs"],
  [/^the shaper between lookups$/, "The script's order, between lookups"], [/^advances$/, "Glyphs get their widths"],
  [/^lookup \d+ of GPOS$/, "The font moves glyphs"], [/^shape$/, "The word as it is drawn"],
];

// A step in words.
const headingOf = (head) => HEADINGS.find(([line]) => line.test(head))?.[1] ?? "Lines of the program";

// A heading in words, and below it the lines of the program.
function headingElements(heads, level) {
  const lines = heads.slice(0, 6).map((head) => made("div", {}, made("code", {}, made("bdi", {}, head.slice(0, 120)))));
  return [made(level, {}, headingOf(heads.at(-1) ?? "")), made("div", { class: "lines" }, ...lines)];
}
