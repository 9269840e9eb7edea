// The lanes of processes and the bars of requests, drawn beside the rows in view. They tell nothing that rows don't.
const [WIDEST, NARROWEST, ROOM, EDGE] = [24, 3, 195, 7];
// A lane of this width or more has room for names.
const NAMED = 20;
// Where slots, rows and the view stand, by the last plan.
let place = null;

// Plans where the lanes stand for the rows that are shown, and draws them.
function plan() {
  const shownRows = rows.filter((row) => !row.hidden);
  const height = shownRows.length ? shownRows[0].offsetHeight : 0;
  const top = find("rows").offsetTop;
  let count = 0;
  place = placeOf(rows.map((row) => (row.hidden ? null : top + height * (count++ + 0.5))));
  find("sheet").style.setProperty("--gutter", place.width + "px");
  find("lanes").setAttribute("width", place.width);
  find("lanes").setAttribute("height", top + height * shownRows.length);
  draw();
}

// The lanes or bars with a line that is shown, side by side: each has the least slot that is free from its first row on.
// Those for which there is no room are left out, and the slots that they would have are counted.
function side(all, what, y) {
  const shownOf = new Set();
  data.cards.forEach((card, row) => {
    if (y[row] !== null) card.about.forEach(([kind, number]) => kind === what && shownOf.add(number));
  });
  const [ends, fitting] = [[], []];
  for (const bar of all.filter((one) => shownOf.has(one.number)).sort((one, other) => one.first - other.first)) {
    const free = ends.findIndex((end) => end < bar.first);
    const slot = free < 0 ? ends.length : free;
    ends[slot] = bar.last;
    if (slot < ROOM / NARROWEST) fitting.push({ ...bar, slot });
  }
  const slots = Math.min(ends.length, ROOM / NARROWEST);
  return { fitting, slots, more: ends.length - slots, width: Math.min(WIDEST, ROOM / Math.max(slots, 1)) };
}

// Where each slot stands, and where rows do: `y` is the middle of a row that is shown, and else null; `from` and `to` are
// those of the next one that is shown, behind and before it.
function placeOf(y) {
  const [lanes, bars] = [side(data.lanes, "processes", y), side(data.bars, "requests", y)];
  const [from, to] = [[], []];
  for (let at = y.length - 1, next = null; at >= 0; at -= 1) from[at] = next = y[at] ?? next;
  for (let at = 0, last = null; at < y.length; at += 1) to[at] = last = y[at] ?? last;
  const barsLeft = EDGE + (lanes.slots + 1) * lanes.width + (bars.slots ? EDGE : 0);
  return {
    y, from, to, lanes, bars, width: barsLeft + bars.slots * bars.width + EDGE,
    laneOf: new Map(lanes.fitting.map((lane) => [lane.number, lane])),
    laneX: (slot) => EDGE + (slot + 1.5) * lanes.width, barX: (slot) => barsLeft + (slot + 0.5) * bars.width,
  };
}

// Draws what stands beside the rows in view, and one view more on both sides.
function draw() {
  const pane = find("pane");
  place.top = pane.scrollTop - pane.clientHeight;
  place.bottom = pane.scrollTop + 2 * pane.clientHeight;
  find("lanes").replaceChildren();
  if (rows.length) {
    drawLine("lane browser", place.laneX(-1), span(0, rows.length - 1));
    place.lanes.fitting.forEach(drawLane);
    place.bars.fitting.forEach(drawBar);
    data.cards.forEach(drawDot);
    place.lanes.fitting.forEach(drawEnds);
  }
  drawHeads(pane.scrollTop);
}

// From the first to the last row that is shown of a span of rows, cut at the ends of what is drawn; null where none is.
function span(first, last) {
  const [top, bottom] = [place.from[first], place.to[last]];
  if (top === null || bottom === null || top > bottom || bottom < place.top || top > place.bottom) return null;
  return [Math.max(top, place.top), Math.min(bottom, place.bottom)];
}

// The middle of a row, null where it isn't drawn.
function middle(row) {
  const y = row === null ? null : place.y[row];
  return y !== null && y >= place.top && y <= place.bottom ? y : null;
}

function put(tag, name, attributes, text) {
  const element = document.createElementNS("http://www.w3.org/2000/svg", tag);
  element.setAttribute("class", name);
  for (const key in attributes) element.setAttribute(key, attributes[key]);
  if (text) element.textContent = text;
  find("lanes").append(element);
}

function drawLine(name, x, ends) {
  const width = Math.min(2.5, place.lanes.width / 2);
  if (ends) put("path", name, { d: `M${x} ${ends[0]}V${ends[1]}`, "stroke-width": width });
}

function color(lane) {
  return "c" + (lane.number % 8);
}

// A short text in a box; the letter of a long one is left out.
function cap(name, x, row, text, width, round) {
  const y = middle(row);
  if (y === null || !text) return;
  put("rect", name, { x: x - width / 2, y: y - 7.5, width, height: 15, rx: round });
  put("text", text.length > 4 ? "name small" : "name", { x, y: y + 3.5 }, text.length > 3 ? text.slice(1) : text);
}

function drawLane(lane) {
  const x = place.laneX(lane.slot);
  const locked = lane.lock ?? lane.last;
  if (lane.lock !== lane.first) drawLine("lane warm " + color(lane), x, span(lane.first, locked));
  if (lane.lock !== null) drawLine("lane " + color(lane), x, span(lane.lock, lane.last));
}

function drawDot(card, row) {
  const y = middle(row);
  if (y === null) return;
  const lane = place.laneOf.get(card.lane);
  if (!lane && card.lane !== null) return;
  const target = card.to === null ? null : place.laneOf.get(card.to);
  const x = place.laneX(lane ? lane.slot : -1);
  if (target && target !== lane) drawPost(x, place.laneX(target.slot), y);
  const radius = Math.max(3, Math.min(4.5, place.lanes.width / 2.4));
  put("circle", "dot " + (lane ? color(lane) : "browser"), { cx: x, cy: y, r: radius });
}

// An arrow to the lane of the process that gets a post.
function drawPost(x, end, y) {
  const back = end > x ? -5 : 5;
  put("path", "post", { d: `M${x} ${y}H${end}M${end + back} ${y - 4}L${end} ${y}L${end + back} ${y + 4}` });
}

// The name of a process where it starts, and how it ends.
function drawEnds(lane) {
  const x = place.laneX(lane.slot);
  const bottom = middle(lane.last);
  if (place.lanes.width >= NAMED) cap("start " + color(lane), x, lane.first, "P" + lane.number, 22, 7.5);
  if (bottom === null || !lane.end) return;
  if (lane.end === "exit") {
    put("rect", "exit " + color(lane), { x: x - 4.5, y: bottom - 4.5, width: 9, height: 9 });
  } else {
    put("circle", "killed", { cx: x, cy: bottom, r: 8 });
    put("path", "cross", { d: `M${x - 3} ${bottom - 3}l6 6m0 -6l-6 6` });
  }
}

// A request: it waits until its head, and its response comes in from there on. At its front its name, at its head the rule
// that allows it, at its end the rule that refuses it.
function drawBar(bar) {
  const x = place.barX(bar.slot);
  const width = Math.min(12, place.bars.width - 1);
  const thin = width < 4 ? " thin" : "";
  const box = (name, ends) => {
    const [top, height] = ends ? [ends[0] - 6, ends[1] - ends[0] + 12] : [];
    if (ends) put("rect", name, { x: x - width / 2, y: top, width, height, rx: Math.min(4, width / 2) });
  };
  box("bar " + (bar.how === "whole" ? "wait" : bar.how) + thin, span(bar.first, bar.last));
  if (bar.head !== null) box("bar whole" + thin, span(bar.head, bar.last));
  for (const hop of bar.hops) {
    const y = middle(hop);
    if (y !== null) put("path", "notch", { d: `M${x - width / 2} ${y}h${width}` });
  }
  if (place.bars.width < NAMED) return;
  cap("start request", x, bar.first, "R" + bar.number, 21, 4);
  cap("cap allowed", x, bar.head, bar.allowed, 21, 4);
  cap("cap " + bar.how, x, bar.last, bar.refused, 21, 4);
}

// The names of the lanes that stand beside the first row in view, above them.
function drawHeads(top) {
  const head = find("gutter");
  const first = Math.max(0, place.y.findIndex((y) => y !== null && y > top + head.offsetHeight));
  const labels = [];
  const label = (text, name, x, width) => {
    const element = make("span", name, text);
    element.style.left = x - width / 2 + "px";
    element.style.width = width + "px";
    labels.push(element);
  };
  const names = (bars, letter, nameOf, xOf) => {
    if (bars.more) label("+" + bars.more, "", xOf(bars.slots) - 20, 30);
    if (bars.width < NAMED) return;
    for (const bar of bars.fitting) {
      const isBeside = bar.first <= first && bar.last >= first;
      if (isBeside) label(letter + bar.number, nameOf(bar), xOf(bar.slot), bars.width);
    }
  };
  if (place.lanes.width > 10) label("B", "", place.laneX(-1), place.lanes.width);
  names(place.lanes, "P", color, place.laneX);
  names(place.bars, "R", () => "", place.barX);
  head.replaceChildren(head.firstElementChild, ...labels);
}
