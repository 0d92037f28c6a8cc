// The cards of methods, the tables of rows, and the grid of methods by generations.
const STATES = { added: ["+", "added"], changed: ["●", "changed"], same: ["≈", "emitted anew, the same"],
  moved: ["≈", "emitted anew, at other lines"], none: ["●", "changed; it has no body"] };
const MOST_GRID = 25;
const MOST_OPEN = 50;

function tag(inserted) {
  return make("span", { class: inserted ? "tag new" : "tag" }, inserted ? "added" : "changed");
}

// How many lines of IL a change adds and removes.
function countPart(change) {
  if (change.s === "same" || change.s === "moved") return make("span", { class: "soft" }, "≈ the same code");
  if (change.s === "none") return make("span", { class: "soft" }, "no body");
  return make("span", { class: "counts" }, make("span", { class: "plus" }, "+" + change.c[1]), " ",
    make("span", { class: "minus" }, "−" + change.c[0]));
}

// A method's card; its body is drawn when it is opened.
function cardPart(change) {
  const words = make("span", { class: "soft" }, text(change.h));
  const name = make("span", { class: "name" }, ...breakable(text(change.n)));
  const mark = change.s === "added" || change.s === "changed" ? tag(change.s === "added") : "";
  const head = make("summary", {}, make("h4", {}, words, " ", name), " ", mark, " ", countPart(change));
  const made = make("details", { class: "card", id: place(change.g, change.t) }, head, make("div", { class: "body" }));
  made.change = change;
  made.addEventListener("toggle", () => draw(made));
  return made;
}

// Draws the body of a card that is open, once; again where what is shown has changed.
function draw(card, again) {
  const body = card.lastElementChild;
  if (card.open && (again || !body.hasChildNodes())) body.replaceChildren(...cardParts(card.change));
}

// Draws the cards of a generation that is open, once.
function drawGeneration(part) {
  const cards = part.querySelector(".cards");
  if (!part.open || cards.hasChildNodes()) return;
  const number = Number(part.id.slice(1));
  const changes = DATA.changes.filter((change) => change.g === number);
  cards.append(...changes.map(cardPart));
  if (!changes.length) cards.append(make("p", { class: "soft" }, "It changes no method."));
  if (DATA.changes.length <= MOST_OPEN) for (const card of cards.querySelectorAll(".card")) {
    card.open = true;
    draw(card);
  }
}

// A value of a row, with the name of its token.
function valuePart(words) {
  const code = make("code", {}, ...tokenParts(words, [words]));
  return DATA.names[words] === undefined ? [code] : [code, " " + text(DATA.names[words])];
}

function valueCell(value) {
  if (!Array.isArray(value)) return make("td", {}, ...valuePart(text(value)));
  const [now, before] = value.map((number) => valuePart(text(number)));
  return make("td", { class: "was" }, make("del", {}, hidden("before: "), ...before), " → ",
    make("ins", {}, hidden("now: "), ...now));
}

function rowOf(generation, [token, inserted, name, cells]) {
  const twin = DATA.twins[token];
  const state = inserted ? (twin ? "≈ " + twin : "added") : cells.some(Array.isArray) ? "changed" : "≈ the same";
  const head = make("th", { scope: "row" }, make("code", {}, token));
  return make("tr", { id: place(generation, token) }, head, make("td", {}, state),
    make("td", { class: "name" }, text(name)), ...cells.map(valueCell));
}

// The table of a group of rows.
function groupPart(generation, group) {
  const heads = ["Token", "Change", "Name", ...group.columns];
  const head = make("tr", {}, ...heads.map((words) => make("th", { scope: "col" }, words)));
  const counts = group.inserted + " inserted, " + (group.count - group.inserted) + " updated";
  const rows = group.rows.map((row) => rowOf(generation, row));
  const table = make("table", { class: "rows" }, make("caption", {}, group.table + ": " + counts),
    make("thead", {}, head), make("tbody", {}, ...rows));
  const about = { class: "scroll", tabindex: "0", role: "region", "aria-label": group.table };
  const parts = [make("div", about, table)];
  const left = group.count - group.rows.length;
  if (left) parts.push(make("p", { class: "soft" }, left + " more rows of " + group.table + " aren't listed."));
  return parts;
}

// Draws the rows of a generation that is open, once.
function drawRows(part) {
  const tables = part.querySelector(".tables");
  if (!part.open || tables.hasChildNodes()) return;
  const number = Number(part.id.slice(1));
  tables.append(...DATA.rows[number].flatMap((group) => groupPart(number, group)));
}

// The methods of the grid, each with its changes by generation: the most changed first, then by generation and name.
function methodsOf() {
  const found = new Map();
  for (const change of DATA.changes) {
    if (!found.has(change.t)) found.set(change.t, { name: text(change.n), changes: new Map() });
    found.get(change.t).changes.set(change.g, change);
  }
  const first = (method) => Math.min(...method.changes.keys());
  const order = (a, b) => b.changes.size - a.changes.size || first(a) - first(b) || (a.name < b.name ? -1 : 1);
  return Array.from(found.values()).sort(order);
}

function gridCell(change) {
  if (!change) return make("td", { role: "gridcell" });
  const [sign, words] = STATES[change.s];
  const said = "generation " + change.g + ": " + words + ", +" + change.c[1] + " −" + change.c[0];
  const about = { href: "#" + place(change.g, change.t), tabindex: "-1", title: said, "aria-label": said };
  return make("td", { role: "gridcell", class: change.s }, make("a", about, sign));
}

function gridRow(method, generations) {
  const cells = generations.map((number) => gridCell(method.changes.get(number)));
  const head = make("th", { scope: "row", role: "rowheader" }, ...breakable(method.name));
  return make("tr", { role: "row" }, head, ...cells);
}

// Arrows go from mark to mark of the grid: within a row, or to the next row that has one.
function moveInGrid(event, marks) {
  const at = marks.indexOf(document.activeElement);
  const row = (mark) => mark.closest("tr").rowIndex;
  const steps = { ArrowRight: () => at + 1, ArrowLeft: () => at - 1,
    ArrowDown: () => marks.findIndex((mark) => row(mark) > row(marks[at])),
    ArrowUp: () => marks.findIndex((mark) => row(mark) === row(marks[at]) - 1) };
  const step = steps[event.key];
  const to = step && at >= 0 ? marks[step()] : null;
  if (!to) return;
  event.preventDefault();
  marks.forEach((mark) => { mark.tabIndex = mark === to ? 0 : -1; });
  to.focus();
}

// The grid of methods by generations: so many rows at first.
function drawGrid(box, most) {
  const methods = methodsOf();
  const generations = Object.keys(DATA.rows).map(Number);
  const heads = generations.map((number) => make("th", { scope: "col", role: "columnheader" },
    make("a", { href: "#g" + number, tabindex: "-1" }, String(number))));
  const head = make("tr", { role: "row" }, make("th", { scope: "col", role: "columnheader" }, "Method"), ...heads);
  const rows = methods.slice(0, most).map((method) => gridRow(method, generations));
  const caption = make("caption", { class: "hidden" }, "Methods by generations");
  const parts = [caption, make("thead", {}, head), make("tbody", {}, ...rows)];
  const table = make("table", { role: "grid", class: "grid" }, ...parts);
  box.replaceChildren(table);
  const marks = Array.from(table.querySelectorAll("tbody a"));
  if (marks.length) marks[0].tabIndex = 0;
  table.addEventListener("keydown", (event) => moveInGrid(event, marks));
  const more = document.getElementById("grid-more");
  more.textContent = rows.length + " of " + methods.length + " methods, the most changed first. ";
  if (methods.length <= rows.length) return;
  const button = make("button", { type: "button" }, "Show " + Math.min(200, methods.length - rows.length) + " more");
  button.addEventListener("click", () => drawGrid(box, most + 200));
  more.append(button);
}
