"use strict";
// The page of a replay. All that it shows is in the element `data`, which tools/player writes:
//   routers, links      the domain; a router's `own` is its BFR-id by sub-domain, a link is [a, b, metric from a, metric from b]
//   lines               one a line of the schedule, see Line below
//   frames              [a, b, injection or 0, head, body, first id of its set, sub-domain]; the first frame is number 1
//   heads, bodies       the first 12 octets of frames as hexadecimal digits, and the rest in base64
//   entries, databases  entries of LSDBs, and the LSDBs as lists of them
//   start, down         before the first line, each router's LSDB, and the interfaces [a, b] that are down
//   tables              texts, and for each line from 0 the routers with another text [router, text]; or why there are none

const $ = (id) => document.getElementById(id);
const data = JSON.parse($("data").textContent);
const COLOURS = ["#1d5fa8", "#b5500c", "#0b7d74", "#8a2f8f", "#5d6b00", "#a3263f", "#3f3fb5", "#7a5230"];
const ROW = 21;
const FEW = 16; // routers, which have room for long links
const LEAST_WIDTH = 760; // of the map, so that few routers aren't drawn huge
let { BOX, WIDE, HIGH, EDGE } = sizes();
const NAMES = Object.fromEntries(data.routers.map((router) => [router.system, router.name]));
const PREFIXES = Object.fromEntries(data.routers.map((router) => [router.prefix, router.name]));
const colourOf = (injection) => COLOURS[(injection - 1) % COLOURS.length];
const nameOf = (place) => data.routers[place].name;

// The size of a router's box, of a unit of the layout across and down, and of the map's edges. Routers are at least 0.95 units
// apart across or 0.72 down. Boxes of a large domain are as wide as its names, and the layout is stretched to fill the panel.
function sizes() {
  const { length } = data.routers;
  if (length <= FEW) return { BOX: { width: 104, height: 36 }, WIDE: length <= 6 ? 215 : 165, HIGH: length <= 6 ? 160 : 150, EDGE: 75 };
  const longest = Math.max(...data.routers.map((router) => Math.min(15, router.name.length)));
  const box = { width: Math.max(48, 7.2 * longest + 8), height: 30 };
  const across = Math.max(...data.routers.map((router) => router.x)), down = Math.max(...data.routers.map((router) => router.y));
  const edge = box.width / 2 + 12, panel = $("map").getBoundingClientRect();
  let wide = box.width / 0.95, high = (box.height + 12) / 0.72;
  const shape = (panel.width || 1) / (panel.height || 1), width = across * wide + 2 * edge, height = down * high + 115;
  if (width < height * shape) wide = Math.min(215, (height * shape - 2 * edge) / (across || 1));
  else high = Math.min(160, (width / shape - 115) / (down || 1));
  return { BOX: box, WIDE: wide, HIGH: high, EDGE: edge };
}

// ---------------------------------------------------------------- the course of the replay

// A line: t its text, s [number of the first frame sent, how many], x frames that were delivered, l lost, m that arrived at an
// interface that is down, r repeated, g the report's lines, u interfaces that changed [a, b, is up], d LSDBs that changed.

class State {
  constructor() {
    this.line = 0;
    this.queues = new Map(); // "a,b": numbers of frames, in order
    this.down = new Set(data.down.map(([a, b]) => `${a},${b}`));
    this.databases = data.start.slice();
    for (const [a, b] of data.links) {
      this.queues.set(`${a},${b}`, []);
      this.queues.set(`${b},${a}`, []);
    }
    this.tables = [];
    this.takeTables();
  }

  takeTables() {
    const lines = data.tables.lines || [];
    for (const [place, text] of lines[this.line] || []) this.tables[place] = text;
  }

  queueOf(number) {
    const [a, b] = data.frames[number - 1];
    return this.queues.get(`${a},${b}`);
  }

  forward() {
    const line = data.lines[this.line++];
    for (let i = 0; i < line.s[1]; i++) this.queueOf(line.s[0] + i).push(line.s[0] + i);
    for (const number of line.r) this.queueOf(number).push(number);
    for (const gone of [line.x, line.l, line.m]) for (const number of gone) this.remove(number);
    for (const [a, b, isUp] of line.u) isUp ? this.down.delete(`${a},${b}`) : this.down.add(`${a},${b}`);
    for (const [place, database] of line.d) this.databases[place] = database;
    this.takeTables();
  }

  remove(number) {
    const queue = this.queueOf(number);
    queue.splice(queue.indexOf(number), 1);
  }
}

let state = new State();

function stateAt(line) {
  if (state.line > line) state = new State();
  while (state.line < line) state.forward();
}

// ---------------------------------------------------------------- frames

const bodies = new Map();

function octetsOf(number) {
  const [, , , head, body] = data.frames[number - 1];
  if (!bodies.has(body)) bodies.set(body, Uint8Array.from(atob(data.bodies[body]), (c) => c.charCodeAt(0)));
  const rest = bodies.get(body), octets = new Uint8Array(12 + rest.length);
  for (let i = 0; i < 12; i++) octets[i] = parseInt(data.heads[head].slice(2 * i, 2 * i + 2), 16);
  octets.set(rest, 12);
  return octets;
}

// The BFR-ids of a data frame: its positions, counted on from the first id of its set.
function idsOf(number, dissection) {
  const first = data.frames[number - 1][5];
  return dissection.bier.places.map((place) => place + first - 1);
}

const summaries = new Map();

function summaryOf(number) {
  if (summaries.has(number)) return summaries.get(number);
  const injection = data.frames[number - 1][2], it = dissect(octetsOf(number), NAMES);
  const tunnel = it.tunnel ? `, in a tunnel to ${PREFIXES[it.tunnel.destination]}` : "";
  const text = injection ? `#${injection} for ${runsOf(idsOf(number, it))}, TTL ${it.bier.ttl}${tunnel}` : it.summary;
  summaries.set(number, text);
  return text;
}

// Redraws when an element's size changes, but in the next frame, since drawing may change sizes again.
function onResize(element, draw) {
  new ResizeObserver(() => requestAnimationFrame(draw)).observe(element);
}

// ---------------------------------------------------------------- long lists: only the visible rows are made

class List {
  constructor(element, fill) {
    this.element = element;
    this.fill = fill; // (row element, item)
    this.items = [];
    this.spacer = document.createElement("div");
    element.append(this.spacer);
    element.addEventListener("scroll", () => this.draw());
    onResize(element, () => this.draw());
  }

  set(items) {
    this.items = items;
    this.spacer.style.height = `${items.length * ROW}px`;
    this.element.scrollTop = 0;
    this.draw();
  }

  draw() {
    const top = Math.max(0, Math.floor(this.element.scrollTop / ROW) - 5);
    const end = Math.min(this.items.length, top + Math.ceil((this.element.clientHeight || 300) / ROW) + 10);
    const rows = [];
    for (let i = top; i < end; i++) {
      const row = document.createElement("div");
      row.className = "row";
      row.style.top = `${i * ROW}px`;
      this.fill(row, this.items[i], i);
      rows.push(row);
    }
    this.spacer.replaceChildren(...rows);
  }

  show(place) {
    const top = place * ROW, height = this.element.clientHeight;
    if (top < this.element.scrollTop || top + ROW > this.element.scrollTop + height) {
      this.element.scrollTop = Math.max(0, top - height / 2);
    }
    this.draw();
  }
}

function part(className, text) {
  const span = document.createElement("span");
  span.className = className;
  span.textContent = text;
  return span;
}

function fillFrame(row, number) {
  const [a, b, injection] = data.frames[number - 1];
  row.classList.toggle("control", !injection);
  row.classList.toggle("on", number === shownFrame);
  if (injection) row.style.color = colourOf(injection);
  row.append(part("number", number), part("ways", `${nameOf(a)} → ${nameOf(b)}`), part("", summaryOf(number)));
  row.title = summaryOf(number);
  row.onclick = () => showFrame(number);
}

function fillTold(row, text) {
  row.classList.add(kindOf(text));
  const code = document.createElement("code");
  code.textContent = text;
  row.append(code);
  row.title = text;
}

function fillLine(row, line, place) {
  row.classList.toggle("on", place + 1 === shownLine);
  row.classList.toggle("comment", line.t.startsWith("#"));
  const code = document.createElement("code");
  code.textContent = line.t;
  row.append(part("number", place + 1));
  if (line.drops) row.append(part("mark drop", `✕${line.drops}`));
  if (line.got) row.append(part("mark got", `✓${line.got}`));
  for (const answer of answersOf(line)) row.append(answer);
  row.append(code);
  row.title = line.t;
  row.onclick = () => goTo(place + 1);
}

// The answers to `quiet` and `cover`, as marks of a line.
function answersOf(line) {
  const coverage = coverageOf(line), quiet = line.g.find((told) => kindOf(told) === "quiet");
  if (quiet) return [quiet.endsWith(" quiet yes") ? part("mark got", "yes") : part("mark drop", "no")];
  if (!coverage) return [];
  const { asked, covered } = coverage;
  return [part(covered.length < asked.length ? "mark drop" : "mark got", `${covered.length} of ${asked.length}`)];
}

// Of a line `cover` the sub-domain and the BFR-ids that it asks for, and those that the answer lists; null for another line.
function coverageOf(line) {
  const told = line && line.g.find((text) => kindOf(text) === "cover");
  if (!told) return null;
  const numbers = (word) => [...new Set(word.split(",").filter((number) => number !== "-").map(Number))];
  const words = line.t.trim().split(/ +/);
  return { subdomain: Number(words[2]), asked: numbers(words[4]), covered: numbers(told.split(" ")[2]) };
}

const kindOf = (told) => told.split(" ")[1];
const countOf = (line, kind) => line.g.filter((told) => kindOf(told) === kind).length;

for (const line of data.lines) {
  line.drops = countOf(line, "drop");
  line.got = countOf(line, "got");
}

// ---------------------------------------------------------------- the map

const SVG = "http://www.w3.org/2000/svg";
const routerElements = [], ways = new Map(), halves = new Map();
let view;

function make(name, attributes, parent, text) {
  const element = document.createElementNS(SVG, name);
  for (const [key, value] of Object.entries(attributes)) element.setAttribute(key, value);
  if (text !== undefined) element.textContent = text;
  parent.append(element);
  return element;
}

const pointOf = (place) => ({ x: data.routers[place].x * WIDE, y: data.routers[place].y * HIGH });

// Where a line from a router's center leaves its box.
function edgePoint(from, to, gap) {
  const dx = to.x - from.x, dy = to.y - from.y;
  const across = (BOX.width / 2 + gap) / Math.max(Math.abs(dx), 0.01), down = (BOX.height / 2 + gap) / Math.max(Math.abs(dy), 0.01);
  const scale = Math.min(across, down, 0.45);
  return { x: from.x + dx * scale, y: from.y + dy * scale };
}

const between = (p, q, share) => ({ x: p.x + (q.x - p.x) * share, y: p.y + (q.y - p.y) * share });

function drawLink(layer, [a, b, there, back]) {
  const p = pointOf(a), q = pointOf(b), middle = between(p, q, 0.5);
  halves.set(`${a},${b}`, make("line", { class: "link", x1: p.x, y1: p.y, x2: middle.x, y2: middle.y }, layer));
  halves.set(`${b},${a}`, make("line", { class: "link", x1: q.x, y1: q.y, x2: middle.x, y2: middle.y }, layer));
  if (data.routers.length > FEW) return; // a link's title has its metric
  const places = there === back ? [[0.5, there]] : [[0.32, there], [0.68, back]];
  for (const [share, metric] of places) {
    const at = between(p, q, share);
    make("text", { class: "metric", x: at.x, y: at.y - 3 }, layer, metric);
  }
}

// What a direction of a link shows: an arrow with BFR-ids, how many frames are in flight, and a cross where one was lost.
function drawWay(layer, a, b, metric) {
  const p = pointOf(a), q = pointOf(b), length = Math.hypot(q.x - p.x, q.y - p.y) || 1;
  const aside = { x: (-(q.y - p.y) / length) * 7, y: ((q.x - p.x) / length) * 7 };
  const shift = (point) => ({ x: point.x + aside.x, y: point.y + aside.y });
  const from = shift(edgePoint(p, q, 2)), to = shift(edgePoint(q, p, 6));
  const arrow = make("path", { class: "arrow", d: `M${from.x},${from.y}L${to.x},${to.y}` }, layer);
  const hit = make("line", { class: "hit", x1: from.x, y1: from.y, x2: to.x, y2: to.y }, layer);
  make("title", {}, hit, `${nameOf(a)} → ${nameOf(b)}, metric ${metric}`);
  hit.onclick = () => select({ a, b });
  const badgeAt = between(from, to, 0.3), idsAt = between(from, to, 0.62), cross = between(from, to, 0.5);
  const badge = make("g", { class: "badge", transform: `translate(${badgeAt.x},${badgeAt.y})` }, layer);
  make("circle", { r: 8 }, badge);
  const count = make("text", {}, badge, "");
  badge.onclick = () => { select({ a, b }); showTab("way"); };
  const ids = make("g", {}, layer);
  const lost = make("path", { class: "lost", d: `M${cross.x - 6},${cross.y - 6}l12,12m0,-12l-12,12` }, layer);
  ways.set(`${a},${b}`, { arrow, hit, badge, count, ids, idsAt, lost });
}

// Condenses a text that is wider than a box, by the width of its letters.
function textIn(text, letter) {
  if (text.textContent.length * letter > BOX.width - 4) {
    text.setAttribute("textLength", BOX.width - 8);
    text.setAttribute("lengthAdjust", "spacingAndGlyphs");
  }
}

function drawRouter(layer, router, place) {
  const { x, y } = pointOf(place);
  const group = make("g", { transform: `translate(${x},${y})` }, layer);
  make("rect", { x: -BOX.width / 2, y: -BOX.height / 2, width: BOX.width, height: BOX.height, rx: router.overload ? 2 : 8 }, group);
  make("title", {}, group, `${router.name}, ${router.ids}${router.overload ? ", overload bit set" : ""}`);
  textIn(make("text", { y: -3 }, group, router.name), 7.2);
  textIn(make("text", { class: "small", y: 11 }, group, router.ids + (router.overload ? " · overload bit" : "")), 5.4);
  make("circle", { cx: BOX.width / 2 - 3, cy: -BOX.height / 2 + 3, r: 6 }, group);
  const fate = make("text", { class: "fate", y: BOX.height / 2 + 12 }, group, "");
  group.onclick = () => select({ router: place });
  routerElements.push({ group, fate });
}

function drawMap() {
  const svg = $("map");
  svg.replaceChildren();
  routerElements.length = 0;
  const marks = make("defs", {}, svg);
  for (const [name, colour] of [...COLOURS.map((colour, i) => [`m${i}`, colour]), ["mc", "#7d8995"]]) {
    const size = name === "mc" ? 6 : 4.2;
    const place = { viewBox: "0 0 8 8", refX: 6, refY: 4, markerWidth: size, markerHeight: size, orient: "auto" };
    const mark = make("marker", { id: name, ...place }, marks);
    make("path", { d: "M0,0L8,4L0,8z", fill: colour }, mark);
  }
  const [links, over, boxes] = ["g", "g", "g"].map((name) => make(name, {}, svg)); // names are never covered
  for (const link of data.links) drawLink(links, link);
  data.routers.forEach((router, place) => drawRouter(boxes, router, place));
  for (const [a, b, there, back] of data.links) {
    drawWay(over, a, b, there);
    drawWay(over, b, a, back);
  }
  const xs = data.routers.map((_, place) => pointOf(place).x), ys = data.routers.map((_, place) => pointOf(place).y);
  const left = Math.min(...xs) - EDGE, top = Math.min(...ys) - 45;
  const width = Math.max(...xs) + EDGE - left, wider = Math.max(0, LEAST_WIDTH - width);
  view = { x: left - wider / 2, y: top, width: width + wider, height: Math.max(...ys) + 70 - top };
  setView();
}

// A large domain fills the panel, whatever its size.
function fitMap() {
  const now = sizes();
  if (data.routers.length <= FEW || (now.WIDE === WIDE && now.HIGH === HIGH)) return;
  ({ BOX, WIDE, HIGH, EDGE } = now);
  drawMap();
  update();
}

function setView() {
  $("map").setAttribute("viewBox", `${view.x} ${view.y} ${view.width} ${view.height}`);
}

function moveByHand(svg) {
  const scale = () => Math.max(view.width / svg.clientWidth, view.height / svg.clientHeight);
  let held = null;
  svg.addEventListener("wheel", (event) => {
    event.preventDefault();
    const factor = event.deltaY > 0 ? 1.15 : 1 / 1.15, box = svg.getBoundingClientRect();
    const across = (event.clientX - box.left) / box.width, down = (event.clientY - box.top) / box.height;
    const { x, y, width, height } = view, grown = 1 - factor;
    view = { x: x + width * across * grown, y: y + height * down * grown, width: width * factor, height: height * factor };
    setView();
  }, { passive: false });
  svg.addEventListener("pointerdown", (event) => { held = { x: event.clientX, y: event.clientY }; });
  window.addEventListener("pointermove", (event) => {
    if (!held) return;
    view.x -= (event.clientX - held.x) * scale();
    view.y -= (event.clientY - held.y) * scale();
    held = { x: event.clientX, y: event.clientY };
    setView();
  });
  window.addEventListener("pointerup", () => { held = null; });
  svg.addEventListener("click", (event) => { if (event.target === svg) select(null); });
}

function updateMap(line) {
  const sent = framesSent(line), copies = new Map(), control = new Set();
  for (const number of sent) {
    const [a, b, injection] = data.frames[number - 1], way = `${a},${b}`;
    if (!injection) control.add(way);
    else copies.set(way, [...(copies.get(way) || []), number]);
  }
  const lost = new Set(line ? [...line.l, ...line.m].map((number) => data.frames[number - 1].slice(0, 2).join(",")) : []);
  for (const [way, it] of ways) {
    showArrow(it, copies.get(way), control.has(way));
    showBadge(it, state.queues.get(way));
    it.lost.style.visibility = lost.has(way) ? "visible" : "hidden";
    it.hit.classList.toggle("on", selected !== null && `${selected.a},${selected.b}` === way);
  }
  for (const [way, half] of halves) half.classList.toggle("down", state.down.has(way));
  updateRouters(line);
}

function showArrow(it, copies, hasControl) {
  it.ids.replaceChildren();
  it.arrow.style.visibility = copies || hasControl ? "visible" : "hidden";
  it.arrow.classList.toggle("control", !copies);
  it.arrow.classList.toggle("tunnel", copies !== undefined && copies.every((number) => dissect(octetsOf(number), NAMES).tunnel));
  if (!copies) {
    it.arrow.style.stroke = "";
    it.arrow.setAttribute("marker-end", "url(#mc)");
    return;
  }
  const injection = data.frames[copies[copies.length - 1] - 1][2];
  it.arrow.style.stroke = colourOf(injection);
  it.arrow.setAttribute("marker-end", `url(#m${(injection - 1) % COLOURS.length})`);
  copies.slice(0, 3).forEach((number, place) => {
    const own = data.frames[number - 1][2], ids = idsOf(number, dissect(octetsOf(number), NAMES));
    const spot = { class: "ids", x: it.idsAt.x, y: it.idsAt.y + 4 + 11 * place, fill: colourOf(own) };
    make("text", spot, it.ids, `#${own}: ${short(runsOf(ids), data.routers.length > FEW ? 9 : 18)}`).style.pointerEvents = "none";
  });
  if (copies.length > 3) make("text", { class: "ids", x: it.idsAt.x, y: it.idsAt.y + 37 }, it.ids, `and ${copies.length - 3} more`);
}

// Ascending numbers, with runs of them as the first and the last.
function runsOf(numbers) {
  const runs = [];
  for (const number of numbers) {
    const last = runs[runs.length - 1];
    if (last && last[1] === number - 1) last[1] = number;
    else runs.push([number, number]);
  }
  return runs.map(([from, to]) => (from === to ? from : to === from + 1 ? `${from},${to}` : `${from}–${to}`)).join(",");
}

const short = (text, most = 18) => (text.length > most ? text.slice(0, most - 2) + "…" : text);

function showBadge(it, queue) {
  it.badge.style.display = queue.length ? "" : "none";
  if (!queue.length) return;
  const packets = queue.filter((number) => data.frames[number - 1][2]).length;
  it.badge.classList.toggle("data", packets > 0);
  it.count.textContent = packets || queue.length;
}

// What is written below a router for a line of the report that is about it.
const FATES = {
  got: (words) => `#${words[3]} got ${words[4]}`,
  drop: (words) => `#${words[3]} ${words[4]} ${words[5]}`,
  up: (words) => `up to ${words[3]}`,
  down: (words) => `down to ${words[3]}`,
};

// Routers that a line `cover` asks for: green where they are covered, red where they aren't.
function addCoverage(fates, coverage) {
  if (!coverage) return;
  for (const { name, own } of data.routers) {
    const id = own[coverage.subdomain], isCovered = coverage.covered.includes(id);
    if (!coverage.asked.includes(id)) continue;
    fates.set(name, { got: Number(isCovered), drop: Number(!isCovered), up: 0, down: 0, text: [isCovered ? "covered" : "not covered"] });
  }
}

function updateRouters(line) {
  const fates = new Map();
  for (const words of (line ? line.g : []).map((text) => text.split(" ")).filter(([, kind]) => FATES[kind])) {
    if (!fates.has(words[2])) fates.set(words[2], { got: 0, drop: 0, up: 0, down: 0, text: [] });
    const fate = fates.get(words[2]);
    fate[words[1]]++;
    fate.text.push(FATES[words[1]](words));
  }
  addCoverage(fates, coverageOf(line));
  const differing = differs();
  data.routers.forEach((router, place) => {
    const { group, fate } = routerElements[place], told = fates.get(router.name);
    const names = ["router", router.plain && "plain", router.overload && "overload", differing.has(place) && "differs"];
    if (told) names.push(told.drop ? "drop" : told.got ? "got" : null);
    if (selected && selected.router === place) names.push("on");
    group.setAttribute("class", names.filter(Boolean).join(" "));
    fate.textContent = told ? short(told.text[0]) + (told.text.length > 1 ? ` +${told.text.length - 1}` : "") : "";
    fate.setAttribute("fill", told && (told.drop || told.down) ? "#c9302c" : "#1d7436");
  });
}

// ---------------------------------------------------------------- LSDBs

// The LSDBs that routers have now, each with its routers, the most frequent one first.
function groups() {
  const found = new Map();
  state.databases.forEach((database, place) => found.set(database, [...(found.get(database) || []), place]));
  return [...found].sort((one, other) => other[1].length - one[1].length || one[1][0] - other[1][0]);
}

function differs() {
  return new Set(groups().slice(1).flatMap(([, places]) => places));
}

function entryText(entry) {
  const [name, sequence, isLive, checksum] = data.entries[entry];
  return `${name}, sequence ${sequence}${isLive ? "" : ", purged"}, checksum ${checksum}`;
}

// How an LSDB differs from another: what is missing, different, or only there.
function differences(database, other) {
  const byName = (it) => new Map(data.databases[it].map((entry) => [data.entries[entry][0], entry]));
  const own = byName(database), others = byName(other), found = [];
  const worded = (entry) => `sequence ${data.entries[entry][1]}${data.entries[entry][2] ? "" : ", purged"}`;
  for (const [name, entry] of others) {
    if (!own.has(name)) found.push(`${name} is missing (${worded(entry)})`);
    else if (own.get(name) !== entry) found.push(`${name}: ${worded(own.get(name))}, others ${worded(entry)}`);
  }
  for (const [name, entry] of own) if (!others.has(name)) found.push(`also has ${name} (${worded(entry)})`);
  return found;
}

function chip(place) {
  const it = part("", nameOf(place));
  it.onclick = () => select({ router: place });
  return it;
}

function listOf(texts, most = 60) {
  const list = document.createElement("ul");
  const shown = texts.length > most ? [...texts.slice(0, most), `and ${texts.length - most} more`] : texts;
  for (const text of shown) list.append(Object.assign(document.createElement("li"), { textContent: text }));
  return list;
}

function groupTitle(all, rank) {
  const many = all[rank][1].length;
  if (all.length === 1) return "All LSDBs agree";
  return rank === 0 ? `${many} of ${data.routers.length} routers agree` : `${many} differ`;
}

// What a router holds: the tables of show_router, or else its LSDB.
function showRouter(box, heading, place) {
  heading(nameOf(place));
  const add = (kind, text) => box.append(Object.assign(document.createElement(kind), { textContent: text }));
  if (state.tables[place] !== undefined) {
    add("pre", data.tables.texts[state.tables[place]]);
    return;
  }
  add("p", data.tables.why);
  box.append(listOf(data.databases[state.databases[place]].map(entryText), 300));
}

function showDatabases() {
  const all = groups(), box = $("databases");
  box.replaceChildren();
  const heading = (text) => box.append(Object.assign(document.createElement("h3"), { textContent: text }));
  if (selected && selected.router !== undefined) showRouter(box, heading, selected.router);
  all.forEach(([database, places], rank) => {
    heading(`${groupTitle(all, rank)}, ${data.databases[database].length} LSPs`);
    const chips = document.createElement("div");
    chips.className = "chips";
    chips.append(...places.map(chip));
    box.append(chips);
    if (rank > 0) box.append(listOf(differences(database, all[0][0]), 12));
  });
}

// ---------------------------------------------------------------- lists of a line

const linesList = new List($("schedule"), fillLine);
const toldList = new List($("told"), fillTold);
const sentList = new List($("sent"), fillFrame);
const wayList = new List($("way"), fillFrame);

function framesSent(line) {
  return line ? Array.from({ length: line.s[1] }, (_, i) => line.s[0] + i) : [];
}

function isSelected(number) {
  if (!selected) return true;
  const [a, b] = data.frames[number - 1];
  return selected.router === undefined ? selected.a === a && selected.b === b : selected.router === a || selected.router === b;
}

const isPacket = (number) => data.frames[number - 1][2] > 0;

function choose(numbers, packetsAlone) {
  return numbers.filter((number) => isSelected(number) && (!packetsAlone || isPacket(number)));
}

function updateLists(line) {
  const sent = framesSent(line), way = [...state.queues.values()].flat();
  const router = selected && selected.router !== undefined ? nameOf(selected.router) : null;
  toldList.set((line ? line.g : []).filter((text) => router === null || text.split(" ")[2] === router));
  sentList.set(choose(sent, $("data-only").checked));
  wayList.set(choose(way, $("way-data-only").checked));
  $("told-count").textContent = line ? countText(line) : "";
  $("sent-count").textContent = `${sentList.items.length} frames` + chosenText();
  $("way-count").textContent = `${wayList.items.length} frames` + chosenText();
}

// How many BFR-ids a line delivered and dropped; of interfaces that its hellos changed only those that there are.
function countText(line) {
  const changes = ["up", "down"].map((kind) => [countOf(line, kind), kind]).filter(([count]) => count);
  return [`${line.got} delivered`, `${line.drops} dropped`, ...changes.map(([count, kind]) => `${count} ${kind}`)].join(", ");
}

function chosenText() {
  if (!selected) return "";
  return selected.router === undefined ? ` from ${nameOf(selected.a)} to ${nameOf(selected.b)}` : ` of ${nameOf(selected.router)}`;
}

// ---------------------------------------------------------------- one frame

let shownFrame = 0;

function showFrame(number) {
  shownFrame = number;
  $("detail").hidden = !number;
  if (number) {
    const [a, b, injection, , , , subdomain] = data.frames[number - 1], it = dissect(octetsOf(number), NAMES);
    const what = injection ? `injection ${injection}, sub-domain ${subdomain}, for ${idsOf(number, it).join(",")}` : it.summary;
    $("detail-title").textContent = `Frame ${number}: ${nameOf(a)} → ${nameOf(b)}, ${what}`;
    showFields(it);
  }
  sentList.draw();
  wayList.draw();
  writeLink();
}

function showFields(it) {
  const cells = showOctets(it.octets);
  const mark = (field, isOn) => cells.slice(field.from, field.to).forEach((cell) => cell.classList.toggle("on", isOn));
  $("fields").replaceChildren(...it.fields.map((field) => {
    const row = document.createElement("div");
    row.className = `field level${field.level}`;
    const name = part("name", field.name);
    name.style.paddingLeft = `${field.level * 12}px`;
    row.append(part("at", field.from), name, part("value", field.value));
    row.onmouseenter = () => mark(field, true);
    row.onmouseleave = () => mark(field, false);
    return row;
  }));
  $("fields").scrollTop = 0;
}

function showOctets(octets) {
  const box = $("octets"), cells = [];
  box.replaceChildren();
  octets.forEach((octet, at) => {
    if (at % 16 === 0) box.append(`${at ? "\n" : ""}${at.toString(16).padStart(4, "0")}  `);
    const cell = document.createElement("i");
    cell.textContent = octet.toString(16).padStart(2, "0");
    cells.push(cell);
    box.append(cell, at % 16 === 7 ? "  " : " ");
  });
  return cells;
}

// ---------------------------------------------------------------- the bar over the lines

const KIND_COLOURS = {
  inject: "#1d5fa8", settle: "#aab6c2", send: "#aab6c2", take: "#7d8995", lose: "#c9302c",
  down: "#c9302c", up: "#2a9d4a", restart: "#7b4ab8", tick: "#d9c58f", again: "#d98e04",
  relabel: "#1f8a8a", leave: "#8a5a1f", join: "#5a8a1f",
  hello: "#aab6c2", greet: "#7d8995", forget: "#c9302c", break: "#c9302c", mend: "#2a9d4a",
  quiet: "#1b2733", cover: "#1b2733",
};

function drawBar() {
  const canvas = $("bar"), ratio = window.devicePixelRatio || 1, width = canvas.clientWidth, height = canvas.clientHeight;
  canvas.width = width * ratio;
  canvas.height = height * ratio;
  const pen = canvas.getContext("2d");
  pen.scale(ratio, ratio);
  pen.clearRect(0, 0, width, height);
  const step = barStep(width), most = Math.log(2 + Math.max(0, ...data.lines.map((line) => line.s[1])));
  const tall = (line) => (height - 22) * (Math.log(1 + line.s[1]) / most);
  data.lines.forEach((line, place) => drawColumn(pen, line, 10 + place * step, step, tall(line)));
  const at = 10 + (shownLine - 0.5) * step;
  pen.fillStyle = "#1b2733";
  pen.fillRect(at - 1, 2, 2, height - 6);
  pen.beginPath();
  pen.moveTo(at - 6, 0);
  pen.lineTo(at + 6, 0);
  pen.lineTo(at, 8);
  pen.fill();
}

const barStep = (width) => (width - 20) / Math.max(1, data.lines.length);

function drawColumn(pen, line, x, step, tall) {
  const width = Math.max(0.6, step - (step > 3 ? 1 : 0)), kind = line.t.trim().split(" ")[0];
  const base = 52, wide = Math.min(width, 26), left = x + (width - wide) / 2;
  pen.fillStyle = KIND_COLOURS[kind] || "#e6e9ed";
  pen.fillRect(left, base - tall, wide, Math.max(tall, 2));
  if (line.got) {
    pen.fillStyle = "#2a9d4a";
    pen.fillRect(left, 54, wide, 4);
  }
  if (line.drops) {
    pen.fillStyle = "#c9302c";
    pen.fillRect(left, 59, wide, 4);
  }
}

function barByHand() {
  const canvas = $("bar");
  let isHeld = false;
  const seek = (event) => goTo(Math.ceil((event.clientX - canvas.getBoundingClientRect().left - 10) / barStep(canvas.clientWidth)));
  canvas.addEventListener("pointerdown", (event) => { isHeld = true; seek(event); });
  window.addEventListener("pointermove", (event) => { if (isHeld) seek(event); });
  window.addEventListener("pointerup", () => { isHeld = false; });
  onResize(canvas, drawBar);
}

// ---------------------------------------------------------------- where we are

const BEFORE = `before the first line: each router has only its own LSP${data.down.length ? ", and all interfaces are down" : ""}`;

let shownLine = 0, selected = null, timer = null;

function goTo(number) {
  number = Math.min(Math.max(Number.isFinite(number) ? number : 0, 0), data.lines.length);
  shownLine = number;
  stateAt(number);
  update();
  linesList.show(Math.max(0, number - 1));
}

function update() {
  const line = shownLine ? data.lines[shownLine - 1] : null;
  $("line-number").value = shownLine;
  $("line-text").textContent = line ? line.t : BEFORE;
  updateMap(line);
  updateLists(line);
  showDatabases();
  drawBar();
  writeLink();
}

function select(what) {
  const same = selected && what && selected.router === what.router && selected.a === what.a && selected.b === what.b;
  selected = same ? null : what;
  update();
}

let shownTab = "line";

function showTab(name) {
  shownTab = name;
  for (const button of document.querySelectorAll("#tabs button")) button.classList.toggle("on", button.dataset.tab === name);
  for (const pane of document.querySelectorAll(".pane")) pane.classList.toggle("on", pane.id === `pane-${name}`);
  for (const list of [toldList, sentList, wayList]) list.draw();
  writeLink();
}

function nextDrop(step) {
  for (let line = shownLine + step; line >= 1 && line <= data.lines.length; line += step) {
    if (data.lines[line - 1].drops) return goTo(line);
  }
}

function play() {
  if (timer) {
    clearInterval(timer);
    timer = null;
  } else {
    timer = setInterval(() => (shownLine < data.lines.length ? goTo(shownLine + 1) : play()), 800);
  }
  $("play").textContent = timer ? "stop" : "play";
}

function writeLink() {
  const link = `#line=${shownLine}` + (shownFrame ? `&frame=${shownFrame}` : "") + (shownTab === "line" ? "" : `&tab=${shownTab}`);
  if (location.hash !== link) history.replaceState(null, "", link);
}

function readLink() {
  const words = new URLSearchParams(location.hash.slice(1)); // read before anything rewrites the link
  const frame = Number(words.get("frame") || 0), tab = words.get("tab");
  showTab(["way", "databases"].includes(tab) ? tab : "line");
  goTo(Number(words.get("line") || 0));
  showFrame(Number.isInteger(frame) && frame >= 1 && frame <= data.frames.length ? frame : 0);
}

const KEYS = {
  ArrowLeft: (event) => goTo(shownLine - (event.shiftKey ? 10 : 1)),
  ArrowRight: (event) => goTo(shownLine + (event.shiftKey ? 10 : 1)),
  Home: () => goTo(0),
  End: () => goTo(data.lines.length),
  p: () => nextDrop(-1),
  n: () => nextDrop(1),
  " ": play,
  g: () => $("line-number").select(),
  1: () => showTab("line"),
  2: () => showTab("way"),
  3: () => showTab("databases"),
  "?": () => $("help").showModal(),
  Escape: () => { showFrame(0); select(null); },
};

function onKey(event) {
  if (event.ctrlKey || event.metaKey || event.altKey || $("help").open) return;
  if (event.target.tagName === "INPUT" && event.target.type === "number" && event.key !== "Escape") return;
  const act = KEYS[event.key];
  if (!act) return;
  event.preventDefault();
  if (document.activeElement) document.activeElement.blur();
  act(event);
}

const BUTTONS = {
  first: () => goTo(0),
  back: () => goTo(shownLine - 1),
  play,
  forward: () => goTo(shownLine + 1),
  last: () => goTo(data.lines.length),
  "drop-before": () => nextDrop(-1),
  "drop-next": () => nextDrop(1),
  "detail-close": () => showFrame(0),
  "help-button": () => $("help").showModal(),
};

function start() {
  $("end").textContent = data.end;
  drawMap();
  moveByHand($("map"));
  onResize($("map"), fitMap);
  linesList.set(data.lines);
  barByHand();
  for (const [id, act] of Object.entries(BUTTONS)) $(id).onclick = act;
  for (const button of document.querySelectorAll("#tabs button")) button.onclick = () => showTab(button.dataset.tab);
  for (const id of ["data-only", "way-data-only"]) $(id).onchange = update;
  $("line-number").onchange = () => goTo(Number($("line-number").value));
  document.addEventListener("keydown", onKey);
  window.addEventListener("hashchange", readLink);
  readLink();
}

start();
