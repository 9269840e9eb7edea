"use strict";
// The page of a history: choosing a line, and filtering. All texts come as parts and are set as texts, so nothing of a
// script or a history is ever read as markup.
const data = JSON.parse(document.getElementById("data").textContent);
const find = (id) => document.getElementById(id);
const rows = Array.from(find("rows").rows);
const buttons = rows.map((row) => row.querySelector("button"));
const filters = ["documents", "requests", "processes", "outcome"].map(find);
// The line that is chosen, and the one on which the tabulator stops.
let chosen = -1;
let stop = 0;

// Makes an element with a class, and what stands in it: texts and other elements.
function make(tag, name, ...inside) {
  const element = document.createElement(tag);
  if (name) element.className = name;
  element.append(...inside);
  return element;
}

function show(parts) {
  return parts.map(([role, text]) => (role ? make("span", "t" + role, text) : text));
}

function button(act, ...inside) {
  const element = make("button", "", ...inside);
  element.type = "button";
  element.addEventListener("click", act);
  return element;
}

// The list of what a panel tells by names.
function named(pairs) {
  const list = make("dl", "fields");
  for (const [name, parts] of pairs) list.append(make("dt", "", name), make("dd", "", ...show(parts)));
  return list;
}

// A row of the rules' pages; the rule by itself is told above its rows.
function wordsOf(place) {
  const words = data.words[place];
  const list = named(words.cells.filter(([head, parts]) => head !== "Rule" || parts[0][1].includes(",")));
  list.className = "";
  const from = make("p", "page", "from ", make("span", "tc", words.page), ", " + (words.section || words.title));
  return make("div", "row", list, from);
}

function lineList(lines) {
  const list = make("ul", "lines");
  for (const [line, why] of lines) {
    const inside = [make("b", "", String(line)), make("span", "", why)];
    list.append(make("li", "", button(() => goTo(line - data.first), ...inside)));
  }
  return list;
}

function section(title, ...inside) {
  return [make("h3", "", title), ...inside];
}

function ruleBox(card, row) {
  const box = make("div", "rule " + row.className, make("p", "", make("b", "", card.rule), " ", ...show(card.group)));
  box.append(...card.rows.map(wordsOf));
  return section("The rule", box);
}

// Fills the panel with what is told of a line.
function fill(index) {
  const card = data.cards[index];
  const row = rows[index];
  const copy = (place) => Array.from(row.cells[place].childNodes, (node) => node.cloneNode(true));
  const detail = [make("p", "says", ...copy(2), " ", ...copy(3))];
  if (row.cells[4].childNodes.length) detail.push(make("p", "result", ...copy(4)));
  if (card.rule) detail.push(...ruleBox(card, row));
  detail.push(...section("What the line says", named(card.fields)));
  if (card.effect.length) detail.push(...section("What it does", make("p", "", ...show(card.effect))));
  if (card.choice.length) {
    detail.push(...section("The process: the first of these that there is", ...card.choice.map(wordsOf)));
  }
  if (card.lines.length) detail.push(...section("Lines that belong to it", lineList(card.lines)));
  if (card.follows !== null) detail.push(...section("When such a line may stand", wordsOf(card.follows)));
  const objects = card.about.map(([what, number]) => {
    const one = { documents: "document", requests: "request", processes: "process" }[what];
    return button(() => filterBy(what, number), "Only " + one + " " + number);
  });
  if (objects.length) detail.push(...section("Filter", make("div", "objects", ...objects)));
  detail.push(...section("The line itself", make("p", "raw", card.text)));
  find("detail").replaceChildren(...detail);
  find("panel-title").textContent = "Line " + (index + data.first) + ": " + card.name;
}

// Marks the part of the script that a line does, and brings it into the view of its own pane.
function showSource(path) {
  document.querySelector("#source .here")?.classList.remove("here");
  const part = path && find("source" + path);
  if (!part) return;
  part.classList.add("here");
  const pane = find("source");
  const [inner, outer] = [part.getBoundingClientRect(), pane.getBoundingClientRect()];
  if (inner.top >= outer.top && inner.bottom <= outer.bottom) return;
  pane.scrollTop += inner.top - outer.top - pane.clientHeight / 4;
}

function showOverview(isShown) {
  find("overview").hidden = !isShown;
  find("detail").hidden = isShown;
  find("overview-button").hidden = isShown;
  if (isShown) find("panel-title").textContent = "What stands out";
}

// The lines are one stop of the tabulator.
function setStop(index) {
  buttons[stop].tabIndex = -1;
  buttons[index].tabIndex = 0;
  stop = index;
}

// Chooses a line: its row is marked, and the panel tells of it.
function choose(index) {
  if (chosen >= 0) rows[chosen].removeAttribute("aria-current");
  rows[index].setAttribute("aria-current", "true");
  chosen = index;
  setStop(index);
  showOverview(false);
  fill(index);
  document.querySelector(".panel").scrollTop = 0;
  showSource(data.cards[index].source);
  try {
    history.replaceState(null, "", "#" + rows[index].id);
  } catch {
    // Where a page has no address of its own, it keeps the one that it has.
  }
}

// Goes to a line from elsewhere, also where a filter hides it.
function goTo(index) {
  if (!rows[index]) return;
  if (rows[index].hidden) clear();
  choose(index);
  rows[index].scrollIntoView({ block: "nearest" });
}

function step(from, by) {
  let index = from + by;
  while (rows[index] && rows[index].hidden) index += by;
  return rows[index] ? index : from;
}

function onRowKey(event) {
  const from = buttons.indexOf(event.target);
  const moves = { ArrowDown: [from, 1], ArrowUp: [from, -1], Home: [-1, 1], End: [rows.length, -1] };
  if (from < 0 || !moves[event.key]) return;
  event.preventDefault();
  const index = step(...moves[event.key]);
  choose(index);
  buttons[index].focus({ preventScroll: true });
  rows[index].scrollIntoView({ block: "nearest" });
}

function onRowClick(event) {
  const row = event.target.closest("tr");
  if (!row) return;
  choose(rows.indexOf(row));
  // A click that a key made goes on to the panel.
  if (event.detail === 0) find("panel-title").focus();
}

// Filters.

function fits(index) {
  const about = data.cards[index].about;
  const [role] = rows[index].className.split(" ");
  return filters.every((filter) => {
    if (!filter.value) return true;
    if (filter.id === "outcome") return filter.value.split(" ").includes(role);
    return about.some(([what, number]) => what === filter.id && String(number) === filter.value);
  });
}

function applyFilters() {
  let count = 0;
  rows.forEach((row, index) => {
    row.hidden = !fits(index);
    if (!row.hidden) count += 1;
  });
  filters.forEach((filter) => filter.classList.toggle("set", filter.value !== ""));
  for (const card of document.querySelectorAll(".processes button")) {
    card.setAttribute("aria-pressed", String(card.dataset.process === find("processes").value));
  }
  find("count").textContent = count + " of " + rows.length + (rows.length === 1 ? " line" : " lines");
  find("none").hidden = count > 0 || rows.length === 0;
  plan();
  if (chosen >= 0 && !rows[chosen].hidden) rows[chosen].scrollIntoView({ block: "nearest" });
  else if (count > 0) setStop(step(-1, 1));
}

function filterBy(what, number) {
  find(what).value = String(number);
  applyFilters();
}

function clear() {
  filters.forEach((filter) => { filter.value = ""; });
  applyFilters();
}

function start() {
  find("rows").addEventListener("click", onRowClick);
  find("rows").addEventListener("keydown", onRowKey);
  filters.forEach((filter) => filter.addEventListener("change", applyFilters));
  find("clear").addEventListener("click", clear);
  find("overview-button").addEventListener("click", () => {
    showOverview(true);
    find("panel-title").focus();
  });
  for (const card of document.querySelectorAll(".processes button")) {
    const process = find("processes");
    card.addEventListener("click", () => {
      process.value = process.value === card.dataset.process ? "" : card.dataset.process;
      applyFilters();
    });
  }
  for (const link of document.querySelectorAll("#overview [data-line]")) {
    link.addEventListener("click", () => goTo(link.dataset.line - data.first));
  }
  let waiting = false;
  find("pane").addEventListener("scroll", () => {
    if (!waiting) requestAnimationFrame(() => { waiting = false; draw(); });
    waiting = true;
  });
  new ResizeObserver(plan).observe(find("pane"));
  window.addEventListener("hashchange", fromAddress);
  applyFilters();
  fromAddress();
}

// A line can be named behind the page's address, as #line-7.
function fromAddress() {
  const line = /^#line-(\d+)$/.exec(location.hash);
  if (line) goTo(line[1] - data.first);
}

