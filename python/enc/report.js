// The page: search, links, keys, switches.
(function () {
  const input = document.getElementById("query");
  const found = document.getElementById("found");
  const said = document.getElementById("said");
  const keys = document.getElementById("keys");
  const MOST = 50;
  const MOST_DRAWN = 300;
  let rows = null;

  // What can be found: token, name, generation.
  function index() {
    if (rows) return rows;
    rows = DATA ? DATA.changes.map((one) => ({ token: one.t, generation: one.g, name: text(one.n) })) : [];
    for (const number in DATA ? DATA.rows : {}) {
      for (const group of DATA.rows[number]) {
        for (const [token, , name] of group.rows) rows.push({ token, generation: Number(number), name: text(name) });
      }
    }
    return rows;
  }

  function matches(words) {
    const wanted = words.toLowerCase();
    const tokens = index().filter((row) => row.token.startsWith(wanted));
    const names = index().filter((row) => row.name.toLowerCase().includes(wanted) && !row.token.startsWith(wanted));
    return tokens.concat(names);
  }

  function item(row) {
    const link = make("a", { href: "#" + place(row.generation, row.token) }, row.token + " " + row.name);
    return make("li", {}, link, " generation " + row.generation);
  }

  function search() {
    const words = input.value.trim();
    const all = words ? matches(words) : [];
    found.replaceChildren(...all.slice(0, MOST).map(item));
    const cut = all.length > MOST ? ", the first " + MOST + " are:" : "";
    said.textContent = words ? all.length + " found" + cut : "";
    return all;
  }

  // Draws what a part that was opened has.
  function drawn(part) {
    if (part.classList.contains("generation")) drawGeneration(part);
    if (part.classList.contains("rows-of")) drawRows(part);
    if (part.classList.contains("card")) draw(part);
  }

  function open(at) {
    for (let part = at; part; part = part.parentElement) {
      if (part.localName === "details" && !part.open) part.open = true;
      if (part.localName === "details") drawn(part);
    }
  }

  // The element of an id, with what it stands in drawn: `06000003` is the newest change of that row.
  function reached(id) {
    if (DATA && DATA.newest[id] !== undefined) id = place(DATA.newest[id], id);
    const parts = /^g(\d+)-([0-9a-f]{8})$/.exec(id);
    if (parts) {
      const outer = document.getElementById((parts[2].startsWith("06") ? "g" : "m") + parts[1]);
      if (outer) open(outer);
    }
    return document.getElementById(id);
  }

  // Opens what a link leads to, and goes there.
  function follow() {
    const id = decodeURIComponent(location.hash.slice(1));
    if (!id) return;
    const at = reached(id);
    if (!at) {
      const why = " isn't among the rows of this page: no delta changes it, or the page would be too long";
      if (/^[0-9a-f]{8}$/.test(id)) said.textContent = id + why;
      return;
    }
    open(at);
    document.querySelectorAll(".at").forEach((other) => other.classList.remove("at"));
    at.classList.add("at");
    at.tabIndex = -1;
    at.scrollIntoView();
    at.focus({ preventScroll: true });
  }

  function go(id) {
    if (location.hash === "#" + id) follow();
    else location.hash = "#" + id;
  }

  // The next method or the one before, from that where the page stands.
  function step(by) {
    if (!DATA || !DATA.changes.length) return;
    const all = DATA.changes.map((change) => place(change.g, change.t));
    const here = all.indexOf((document.querySelector(".card.at") || { id: "" }).id);
    const next = here < 0 ? (by > 0 ? 0 : all.length - 1) : here + by;
    if (all[next]) go(all[next]);
    else said.textContent = by > 0 ? "This is the last method." : "This is the first method.";
  }

  function pressed(event) {
    const at = event.target;
    if (event.ctrlKey || event.metaKey || event.altKey || keys.open) return;
    if (at.localName === "input" && at.type !== "checkbox") return;
    const acts = { "/": () => { input.focus(); input.select(); }, n: () => step(1), p: () => step(-1),
      "?": () => keys.showModal() };
    if (!acts[event.key]) return;
    event.preventDefault();
    acts[event.key]();
  }

  // Opens or folds the generations and their methods; of many methods the bodies stay folded.
  function all(wanted) {
    for (const part of document.querySelectorAll(".generation")) {
      part.open = wanted;
      if (wanted) drawn(part);
    }
    if (wanted && DATA.changes.length > MOST_DRAWN) return;
    for (const card of document.querySelectorAll(".card")) {
      card.open = wanted;
      draw(card);
    }
  }

  // A switch draws all open cards again.
  function switched(name) {
    const box = document.getElementById(name);
    if (!box) return;
    box.addEventListener("change", () => {
      SHOWN[name] = box.checked;
      document.querySelectorAll(".card[open]").forEach((card) => draw(card, true));
    });
  }

  function begun() {
    for (const id of ["find", "switches"]) if (document.getElementById(id)) document.getElementById(id).hidden = false;
    const grid = document.getElementById("grid");
    if (grid) drawGrid(grid, MOST_GRID);
    for (const part of document.querySelectorAll(".generation, .rows-of")) {
      part.addEventListener("toggle", () => drawn(part));
      drawn(part);
    }
    ["alike", "bytes"].forEach(switched);
    if (document.getElementById("open")) {
      document.getElementById("open").addEventListener("click", () => all(true));
      document.getElementById("fold").addEventListener("click", () => all(false));
    }
  }

  begun();
  input.addEventListener("input", search);
  input.addEventListener("keydown", function (event) {
    if (event.key === "Escape") input.blur();
    if (event.key !== "Enter") return;
    const first = search()[0];
    if (first) go(place(first.generation, first.token));
  });
  document.addEventListener("click", function (event) {
    const link = event.target.closest("a[href^='#']");
    if (link && link.hash === location.hash) follow();
  });
  document.getElementById("help").addEventListener("click", () => keys.showModal());
  document.getElementById("close").addEventListener("click", () => keys.close());
  document.addEventListener("keydown", pressed);
  window.addEventListener("hashchange", follow);
  follow();
})();
