"use strict";
// What the page knows: texts and lines by their numbers, changes of methods, rows by generation.
const DATA = JSON.parse((document.getElementById("data") || { textContent: "null" }).textContent);
const SHOWN = { alike: false, bytes: false };
const AROUND = 3;

// An element with attributes and parts, which are elements or texts.
function make(name, attributes, ...parts) {
  const made = document.createElement(name);
  for (const key in attributes || {}) if (attributes[key] !== "") made.setAttribute(key, attributes[key]);
  made.append(...parts);
  return made;
}

function hidden(words) {
  return make("span", { class: "hidden" }, words);
}

function text(number) {
  return number < 0 ? "" : DATA.texts[number];
}

// Where a change of a row or a method is on the page.
function place(generation, token) {
  return "g" + generation + "-" + token;
}

// What is said of a token as a link to its newest change, or as it is.
function tokenParts(token, words) {
  const at = DATA.newest[token];
  return at === undefined ? words : [make("a", { href: "#" + place(at, token) }, ...words)];
}

function hex(number, digits) {
  return number.toString(16).padStart(digits, "0");
}

// A side of a body or a source: its lines with their labels, points and bytes.
function sideOf(body, name) {
  const isSource = body.d !== undefined;
  const points = new Map();
  for (const point of body[name + "p"] || []) {
    if (!points.has(point[0])) points.set(point[0], []);
    points.get(point[0]).push(point);
  }
  const code = body.x ? Uint8Array.from(atob(body.x[name === "b" ? 0 : 1]), (sign) => sign.charCodeAt(0)) : null;
  const offset = isSource ? body[name + "0"] : 0;
  return { lines: body[name] || [], points, code, isSource, next: 0, offset, line: 0 };
}

// The next line of a side.
function taken(side) {
  const [word, operand, full, token, length] = DATA.lines[side.lines[side.next]];
  const made = { word, text: text(operand), full: text(full), token, points: side.points.get(side.next) || [] };
  made.label = side.isSource ? String(side.offset) : length ? "IL_" + hex(side.offset, 4) : "";
  if (side.code && length) {
    made.bytes = Array.from(side.code.slice(side.offset, side.offset + length), (byte) => hex(byte, 2)).join(" ");
  }
  // A line of source that stands above isn't said again.
  made.points = made.points.filter((point) => point[1] !== side.line);
  if (made.points.length) side.line = made.points[made.points.length - 1][1];
  side.next += 1;
  side.offset += length;
  return made;
}

const KINDS = { s: "same", l: "alike", c: "changed", b: "beside", r: "removed", a: "added" };

// The rows of a diff: pairs of lines, and gaps that stand for lines that the page hasn't.
function rowsOf(body) {
  const sides = [sideOf(body, "b"), sideOf(body, "a")];
  const rows = [];
  for (const [, kind, count, before, after] of body.p.matchAll(/([a-z])(\d+)(?::(-?\d+):(-?\d+))?/g)) {
    if (kind === "g") {
      rows.push({ kind: "left-out", count: Number(count) });
      sides[0].offset = Number(before);
      sides[1].offset = Number(after);
      continue;
    }
    for (let i = 0; i < Number(count); i++) {
      rows.push({
        kind: KINDS[kind],
        before: kind === "a" ? null : taken(sides[0]),
        after: kind === "r" ? null : taken(sides[1]),
      });
    }
  }
  return rows;
}

// A text that may break behind its dots, commas and brackets, and so needn't within a word.
function breakable(words) {
  return words.split(/(?<=[.,(])(?=[^\s)])/).flatMap((part, i) => (i ? [make("wbr"), part] : [part]));
}

// A line as pieces: of these those are compared that differ within it.
function pieces(line) {
  return (line.word ? line.word + " " + line.text : line.text).match(/\w+|\s+|[^\w\s]/g) || [];
}

// Which pieces of two lines are in both, in order: the longest such.
function common(a, b) {
  const best = Array.from({ length: a.length + 1 }, () => new Uint16Array(b.length + 1));
  for (let i = a.length - 1; i >= 0; i--) {
    for (let j = b.length - 1; j >= 0; j--) {
      best[i][j] = a[i] === b[j] ? best[i + 1][j + 1] + 1 : Math.max(best[i + 1][j], best[i][j + 1]);
    }
  }
  const kept = [new Set(), new Set()];
  for (let i = 0, j = 0; i < a.length && j < b.length; ) {
    if (a[i] === b[j]) {
      kept[0].add(i++);
      kept[1].add(j++);
    } else if (best[i + 1][j] >= best[i][j + 1]) i++;
    else j++;
  }
  return kept;
}

// The parts of a line, with what isn't in the other one marked.
function markedParts(words, kept) {
  const parts = [];
  for (let i = 0; i < words.length; ) {
    const is = kept.has(i);
    let end = i;
    while (end < words.length && (kept.has(end) === is || (!is && /^\s+$/.test(words[end])))) end++;
    const said = words.slice(i, end).join("");
    parts.push(...(is ? breakable(said) : [make("mark", {}, ...breakable(said))]));
    i = end;
  }
  return parts;
}

// The texts of a pair of lines; with namespaces where they would read alike without them.
function bothParts(before, after) {
  if (before.text === after.text && before.full !== after.full) {
    before = { ...before, text: before.full || before.text };
    after = { ...after, text: after.full || after.text };
  }
  const words = [pieces(before), pieces(after)];
  if (words[0].length > 300 || words[1].length > 300) return [words[0], words[1]];
  const kept = common(words[0], words[1]);
  return words.map((side, i) => markedParts(side, kept[i]));
}

// The lines of source at which an instruction begins.
function pointParts(line) {
  return line.points.map((point) => {
    if (point.length === 1) return make("q", {}, "// hidden");
    const said = point[5] < 0 ? "" : " " + text(point[5]);
    const where = "line " + point[1] + ", column " + point[2] + ", to " + point[3] + ", " + point[4];
    return make("q", { title: where }, ...breakable("// " + point[1] + said));
  });
}

// What stands in a cell.
function cellParts(line, parts) {
  const words = breakable(line.text);
  const said = parts || (line.word ? [line.word + " ", ...tokenParts(line.token, words)] : words);
  const label = line.label ? [make("i", {}, line.label), " "] : [];
  const found = [...pointParts(line), make("span", { class: "x", title: line.full }, ...label, ...said)];
  if (SHOWN.bytes && (line.token || line.bytes)) {
    found.push(make("small", {}, [line.token, line.bytes].filter(Boolean).join(" · ")));
  }
  return found;
}

function cell(kind, line, parts, sign) {
  if (!line) return make("td", { class: "none" });
  const inner = cellParts(line, parts);
  if (kind === "d") return make("td", { class: "d" }, make("del", {}, ...inner));
  if (kind === "a") return make("td", { class: "a" }, make("ins", {}, ...inner));
  return make("td", { class: kind }, ...inner, ...(sign ? [make("small", { class: "other" }, sign)] : []));
}

// A row of the table of a diff.
function rowPart(row, sides) {
  if (sides === 1) return make("tr", {}, cell("", row.after));
  if (row.kind === "same") return make("tr", {}, cell("", row.before), cell("", row.after));
  if (row.kind === "alike") {
    const signs = SHOWN.alike && !SHOWN.bytes ? [row.before.token, row.after.token] : ["", ""];
    return make("tr", { class: "alike" }, cell("e", row.before, null, signs[0]), cell("e", row.after, null, signs[1]));
  }
  const parts = row.kind === "changed" ? bothParts(row.before, row.after) : [null, null];
  return make("tr", { class: row.kind }, cell("d", row.before, parts[0]), cell("a", row.after, parts[1]));
}

// Whether a row stays where equal ones are folded.
function isKept(row) {
  if (row.kind === "left-out") return true;
  return row.kind !== "same" && (row.kind !== "alike" || SHOWN.alike);
}

// A row that stands for equal ones, and opens them by a click.
function gapPart(rows, sides) {
  const words = rows.length + " equal lines";
  const button = make("button", { type: "button", "aria-expanded": "false" }, "⋯ " + words);
  const made = make("tr", { class: "gap" }, make("td", { colspan: sides }, button));
  button.addEventListener("click", () => made.replaceWith(...rows.map((row) => rowPart(row, sides))));
  return made;
}

function leftOutPart(row, sides) {
  const words = row.count + " equal lines, which this page leaves out";
  return make("tr", { class: "gap" }, make("td", { colspan: sides }, words));
}

// The rows of a table, with runs of equal ones folded to three around what differs.
function foldedParts(rows, sides) {
  const near = new Set();
  rows.forEach((row, i) => {
    if (isKept(row)) for (let k = i - AROUND; k <= i + AROUND; k++) near.add(k);
  });
  const parts = [];
  for (let i = 0; i < rows.length; ) {
    let end = i;
    while (end < rows.length && !near.has(end)) end++;
    if (end - i > 1) parts.push(gapPart(rows.slice(i, end), sides));
    else if (end > i) parts.push(rowPart(rows[i], sides));
    i = end;
    if (i < rows.length) {
      parts.push(rows[i].kind === "left-out" ? leftOutPart(rows[i], sides) : rowPart(rows[i], sides));
      i++;
    }
  }
  return parts;
}

// The table of a diff; one side where there is nothing before.
function diffTable(body, caption, isNew) {
  const rows = rowsOf(body);
  const sides = isNew ? 1 : 2;
  const heads = isNew ? ["Body"] : ["Before", "After"];
  const head = make("tr", {}, ...heads.map((words) => make("th", { scope: "col" }, words)));
  const parts = isNew ? rows.map((row) => rowPart(row, 1)) : foldedParts(rows, sides);
  const kind = body.d === undefined ? "il" : "il source";
  return make("table", { class: kind }, make("caption", {}, caption), make("thead", {}, head),
    make("tbody", {}, ...parts));
}

function counted(counts) {
  return counts[1] + (counts[1] === 1 ? " line" : " lines") + " added, " + counts[0] + " removed";
}

function fact(name, ...parts) {
  return make("div", {}, make("dt", {}, name), " ", make("dd", {}, ...parts));
}

// The columns of a method's row, as they were and as they are.
function rawFacts(change) {
  return (change.f || []).filter((one) => SHOWN.bytes || one[2] >= 0).map(([name, now, before]) => {
    const after = make("code", {}, text(now));
    return before < 0 ? fact(name, after) : fact(name, make("del", {}, text(before)), " → ", make("ins", {}, after));
  });
}

// What is said of a method above its diff.
function factsPart(change) {
  const parts = [fact("Token", make("a", { href: "#" + place(change.g, change.t) }, make("code", {}, change.t)))];
  if (change.at) {
    const [before, now] = change.at.map(text);
    parts.push(fact("Lines", before && before !== now ? before + " → " + now : now || before));
  }
  if (change.o) {
    const links = change.o.map((other) => make("a", { href: "#" + place(other, change.t) }, "generation " + other));
    parts.push(fact("Changed too in", ...links.flatMap((link, i) => (i ? [", ", link] : [link]))));
  }
  if (SHOWN.bytes && !DATA.code) parts.push(fact("Bytes", "left out: the page would be too long"));
  return make("dl", { class: "facts" }, ...parts, ...rawFacts(change));
}

// The body of a method's card: its facts, the lines of source where they are at hand, and its IL.
function cardParts(change) {
  const parts = [factsPart(change)];
  if (change.src) parts.push(diffTable(change.src, "C#: " + counted(change.src.c), change.s === "added"));
  if (change.p === undefined) {
    const why = change.s === "none" ? "It has no body." : "Its body isn't shown: the page would be too long.";
    return [...parts, make("p", {}, why)];
  }
  const said = { same: "the same code, emitted anew", moved: "the same code, at other lines of source" }[change.s];
  const isNew = change.s === "added";
  const words = said || (isNew ? change.c[1] + " lines" : counted(change.c));
  parts.push(diffTable(change, "IL: " + words, isNew));
  if (change.cut) parts.push(make("p", { class: "soft" }, change.cut + " more lines aren't shown."));
  return parts;
}
