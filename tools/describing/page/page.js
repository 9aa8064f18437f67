"use strict";
// The page of a file by its description. The records are in pages, of which one is unpacked and drawn at a time.
const $ = id => document.getElementById(id);
const said = JSON.parse($("data").textContent);
let number = 0;   // of the page that is drawn
let bytes = null; // of that page
let base = 0;     // the place of its first byte in the file
let items = [];   // all nodes of that page, in the order of the tree
let leaf = null;  // from a byte to the nodes without parts that have bits of it
let chosen = null;

function make(tag, name, text) {
  const it = document.createElement(tag);
  it.className = name;
  if (text !== undefined) it.textContent = text;
  return it;
}

// ---- the nodes

function addLeaf(it) {
  const last = Math.min((it.start + it.bits + 7) >> 3, base + bytes.length);
  for (let at = it.start >> 3; at < last; at++) {
    if (leaf.has(at)) leaf.get(at).push(it);
    else leaf.set(at, [it]);
  }
}

function node([name, start, bits, value, kind, inside], depth, above) {
  const [type, doc, range, cases, hidden, of, line, big] = said.kinds[kind];
  const it = { name, start, bits, value, type, doc, range, cases, hidden, of, line, depth, above, open: false };
  it.big = big < 0 ? above.big : big;
  it.hue = line < 0 ? above.hue : said.hues[line % said.hues.length];
  items.push(it);
  it.inside = inside.map(one => node(one, depth + 1, it));
  if (!inside.length) addLeaf(it);
  return it;
}

// A record has nodes, or it is refused or torn: then `why` says so.
function record([start, bits, nodes, why], index) {
  const it = { name: `${said.name} ${said.pages[number].record + index}`, start, bits, type: "", doc: "" };
  Object.assign(it, { range: "", cases: [], hidden: 0, of: 0, line: -1, depth: 0, above: null, hue: why ? 0 : 210 });
  it.value = why.replace(/^record \d+ begins at byte \d+ and is /, "");
  it.big = said.order === "BE" ? 1 : 0;
  it.open = index === 0;
  items.push(it);
  it.inside = nodes.map(one => node(one, 1, it));
  if (why) addLeaf(it);
}

// ---- the tree

const place = bit => `0x${(bit >> 3).toString(16)}${bit & 7 ? "." + (bit & 7) : ""}`;
const size = bits => (bits % 8 || bits < 8 ? `${bits} bit${bits === 1 ? "" : "s"}` : `${bits / 8} B`);

function summary(it) {
  if (it.value || !it.inside.length || it.open) return it.value;
  return it.inside.filter(one => !one.hidden).slice(0, 4).map(one => `${one.name} ${one.value}`).join(", ");
}

function line(it) {
  const row = make("div", (it.inside.length ? "group" : "") + (it.hidden ? " plain" : ""));
  row.setAttribute("role", "treeitem");
  row.setAttribute("aria-level", it.depth + 1);
  row.style.cssText = `--h:${it.hue};padding-left:${it.depth * 1.1 + 0.3}rem`;
  const where = `${place(it.start)}  ${size(it.bits)}`;
  row.append(make("span", "name", it.name), make("span", "value", summary(it)), make("span", "place", where));
  if (it.inside.length) row.setAttribute("aria-expanded", it.open);
  row.onclick = () => {
    if (chosen === it && it.inside.length) toggle(it);
    choose(it);
  };
  row.onmouseenter = () => near(it, true);
  row.onmouseleave = () => near(it, false);
  it.row = row;
  return row;
}

const seen = it => !(it.hidden && !$("hidden").checked) && (!it.above || (it.above.open && seen(it.above)));

function draw() {
  for (const it of items) it.row = null;
  $("tree").replaceChildren(...items.filter(seen).map(line));
  mark();
}

function under(it) {
  const from = items.indexOf(it) + 1;
  let to = from;
  while (to < items.length && items[to].depth > it.depth) to++;
  return items.slice(from, to);
}

// Opens or closes a node: only the rows below it are made anew.
function toggle(it) {
  const rows = under(it);
  for (const one of rows) if (one.row) one.row.remove();
  for (const one of rows) one.row = null;
  it.open = !it.open;
  const old = it.row, fresh = line(it);
  old.replaceWith(fresh);
  fresh.after(...rows.filter(seen).map(line));
}

// ---- the bytes

function colour(at) {
  const all = (leaf.get(at) || []).filter(it => it.bits);
  if (!all.length) return "";
  const stops = all.map(it => {
    let [from, to] = [Math.max(it.start - 8 * at, 0), Math.min(it.start + it.bits - 8 * at, 8)];
    if (!it.big) [from, to] = [8 - to, 8 - from];
    return [from, to, it.hidden ? "var(--line)" : `hsl(${it.hue} var(--s) var(--l))`];
  });
  stops.sort((a, b) => a[0] - b[0]);
  if (stops.length === 1 && stops[0][0] === 0 && stops[0][1] === 8) return `background:${stops[0][2]}`;
  const parts = stops.map(([from, to, hue]) => `${hue} ${from * 12.5}% ${to * 12.5}%`);
  return `background:linear-gradient(90deg,${parts.join(",")})`;
}

const letter = it => (it > 31 && it < 127 ? String.fromCharCode(it) : "·");

function hexRow(from) {
  const row = make("div", "row");
  row.append(make("span", "at", from.toString(16).padStart(6, "0")));
  let letters = "";
  for (let at = from; at < from + 16; at++) {
    const there = at - base < bytes.length;
    const it = make("span", "b", there ? bytes[at - base].toString(16).padStart(2, "0") : "  ");
    if (there) {
      it.dataset.at = at;
      it.style.cssText = colour(at);
      letters += letter(bytes[at - base]);
    }
    row.append(it);
  }
  row.append(make("span", "letters", letters));
  return row;
}

const cell = at => $("hex").querySelector(`[data-at="${at}"]`);

function cells(it, run) {
  const most = Math.min((it.start + it.bits + 7) >> 3, base + bytes.length);
  for (let at = it.start >> 3; at < most; at++) {
    const one = cell(at);
    if (one) run(one);
  }
}

// Returns true if a node has the bit that is k places from the left in a byte, by its own order of bits.
function has(it, at, k) {
  const bit = 8 * at + (it.big ? k : 7 - k);
  return it.start <= bit && bit < it.start + it.bits;
}

const leafAt = (at, k) => (leaf.get(at) || []).find(it => has(it, at, k));

function bitsOfByte(it, at) {
  const one = make("span", "byte");
  for (let k = 0; k < 8; k++) {
    const of = leafAt(at, k), i = make("i", has(it, at, k) ? "on" : "", (bytes[at - base] >> (7 - k)) & 1);
    if (of) {
      i.style.setProperty("--h", of.hue);
      i.title = of.name;
      i.onclick = () => show(of);
    } else i.classList.add("none");
    one.append(i);
  }
  one.append(make("small", "", bytes[at - base].toString(16).padStart(2, "0")));
  return one;
}

function bitsOf(it) {
  const first = it.start >> 3, out = [];
  const last = Math.min((it.start + Math.max(it.bits, 1) + 7) >> 3, first + 16, base + bytes.length);
  for (let at = first; at < last; at++) out.push(bitsOfByte(it, at));
  if (8 * last < it.start + it.bits) out.push(make("span", "", "…"));
  $("bits").replaceChildren(...out);
}

// ---- the chosen node

function near(it, on) {
  cells(it, one => one.classList.toggle("near", on));
  if (it.row) it.row.classList.toggle("near", on);
}

function choose(it) {
  chosen = it;
  mark();
}

function show(it) {
  for (let one = it.above; one; one = one.above) one.open = true;
  chosen = it;
  draw();
}

// Scrolls a box, and nothing around it, to what is inside.
function reveal(box, it) {
  const around = box.getBoundingClientRect(), place = it.getBoundingClientRect();
  if (place.top < around.top) box.scrollTop -= around.top - place.top;
  else if (place.bottom > around.bottom) box.scrollTop += place.bottom - around.bottom;
}

function mark() {
  document.querySelectorAll(".on").forEach(it => it.classList.remove("on"));
  document.querySelectorAll("[aria-selected=true]").forEach(it => it.setAttribute("aria-selected", false));
  if (!chosen) return;
  cells(chosen, one => one.classList.add("on"));
  if (chosen.row) {
    chosen.row.setAttribute("aria-selected", true);
    reveal($("left"), chosen.row);
  }
  const first = cell(chosen.start >> 3);
  if (first) reveal($("hex"), first);
  markPicture();
  bitsOf(chosen);
  detail(chosen);
}

function markPicture() {
  let drawn = chosen;
  while (drawn.of < 0) drawn = drawn.above;
  document.querySelectorAll("figure").forEach(it => (it.hidden = +it.dataset.of !== drawn.of));
  const here = document.querySelectorAll(`figure:not([hidden]) [data-kind="${drawn.line}"]`);
  here.forEach(it => it.classList.add("on"));
}

function pathOf(it) {
  const path = [];
  for (let one = it; one && one.depth; one = one.above) path.unshift(one.name);
  return path.join(".").replaceAll(".[", "[") || it.name;
}

function detail(it) {
  const box = $("detail"), head = make("div", ""), cases = make("div", "cases");
  box.style.setProperty("--h", it.hue);
  head.append(make("b", "", pathOf(it)), " ", make("code", "", it.value), " ", make("span", "soft", it.type));
  const from = `${size(it.bits)} from byte ${it.start >> 3}${it.start & 7 ? `, bit ${it.start & 7}` : ""}`;
  const where = from + (it.range ? `; ${it.range}` : "");
  for (const [value, name] of it.cases) {
    cases.append(make("span", it.value.split(/[ (]/)[0] === name ? "is" : "", `${value} ${name}`));
  }
  box.replaceChildren(head, make("div", "", it.doc), make("div", "soft", where), cases);
}

// ---- the keyboard

function moved(step) {
  const all = items.filter(seen), at = Math.max(all.indexOf(chosen), 0) + step;
  if (step === 1 && at >= all.length && number + 1 < said.pages.length) return turn(number + 1);
  choose(all[Math.min(Math.max(at, 0), all.length - 1)]);
}

function opened() {
  if (!chosen.inside.length || chosen.open) return moved(1);
  toggle(chosen);
  mark();
}

function closed() {
  if (chosen.inside.length && chosen.open) toggle(chosen);
  else if (chosen.above) chosen = chosen.above;
  mark();
}

const treeKeys = {
  ArrowDown: () => moved(1),
  ArrowUp: () => moved(-1),
  PageDown: () => moved(20),
  PageUp: () => moved(-20),
  Home: () => moved(-1e9),
  End: () => moved(1e9),
  ArrowRight: opened,
  ArrowLeft: closed,
  Enter: () => (chosen.open ? closed() : opened()),
};

function byteMoved(step) {
  const from = step > 0 ? (chosen.start + Math.max(chosen.bits, 1) - 1) >> 3 : chosen.start >> 3;
  let at = Math.min(Math.max(from + step, base), base + bytes.length - 1);
  for (; at >= base && at < base + bytes.length; at += Math.sign(step)) if (leaf.has(at)) return show(leaf.get(at)[0]);
}

function leafMoved(step) {
  const all = items.filter(it => !it.inside.length && it.bits);
  show(all[Math.min(Math.max(all.indexOf(chosen) + step, 0), all.length - 1)]);
}

const hexKeys = {
  ArrowRight: () => leafMoved(1),
  ArrowLeft: () => leafMoved(-1),
  ArrowDown: () => byteMoved(16),
  ArrowUp: () => byteMoved(-16),
  Home: () => leafMoved(-1e9),
  End: () => leafMoved(1e9),
};

function keys(box, table) {
  box.addEventListener("keydown", it => {
    const run = table[it.key];
    if (!run || !chosen) return;
    it.preventDefault();
    run();
  });
}

function otherSide() {
  (document.activeElement === $("tree") ? $("hex") : $("tree")).focus();
}

document.addEventListener("keydown", it => {
  if (it.target.tagName === "INPUT" && it.target.type === "number") return;
  const run = { "/": otherSide, t: () => $("theme").click(), "]": () => turn(number + 1), "[": () => turn(number - 1) };
  if (!run[it.key]) return;
  it.preventDefault();
  run[it.key]();
});

// ---- pages

async function unpacked(k) {
  const packed = Uint8Array.from(atob($(`page-${k}`).textContent), it => it.charCodeAt(0));
  const stream = new Blob([packed]).stream().pipeThrough(new DecompressionStream("gzip"));
  return JSON.parse(await new Response(stream).text());
}

// Draws a page, and chooses the node with a bit of the file, or the first record.
async function turn(k, bit) {
  if (k < 0 || k >= said.pages.length) return;
  const page = await unpacked(k);
  number = k;
  base = page.base;
  bytes = Uint8Array.from(atob(page.bytes), it => it.charCodeAt(0));
  items = [];
  leaf = new Map();
  page.records.forEach(record);
  const rows = [];
  for (let at = base; at < base + bytes.length; at += 16) rows.push(hexRow(at));
  $("hex").replaceChildren(...rows);
  $("hex").scrollTop = 0;
  const last = k + 1 < said.pages.length ? said.pages[k + 1].record : said.records;
  $("which").textContent = `records ${said.pages[k].record} to ${last - 1} of ${said.records}`;
  $("page").value = k + 1;
  $("before").disabled = k === 0;
  $("after").disabled = k + 1 === said.pages.length;
  chosen = (bit !== undefined && leafAt(bit >> 3, bit & 7)) || items[0] || null;
  if (chosen) show(chosen);
  else $("tree").replaceChildren();
  document.body.dataset.drawn = k;
}

const pageOf = bit => Math.max(said.pages.findLastIndex(it => it.start <= bit), 0);

// ---- what is clicked

$("theme").onclick = () => document.documentElement.classList.toggle("dark");
$("hidden").onchange = draw;
$("before").onclick = () => turn(number - 1);
$("after").onclick = () => turn(number + 1);
$("page").max = said.pages.length;
$("page").onchange = () => turn(Math.min(Math.max(+$("page").value, 1), said.pages.length) - 1);
$("pages").hidden = said.pages.length < 2;

$("hex").onclick = it => {
  const at = it.target.dataset.at;
  if (at === undefined || !leaf.has(+at)) return;
  const part = ((it.offsetX / it.target.offsetWidth) * 8) | 0;
  show(leafAt(+at, Math.min(Math.max(part, 0), 7)) || leaf.get(+at)[0]);
};

$("hex").onmouseover = it => {
  const at = it.target.dataset.at, all = leaf.get(+at) || [];
  $("where").textContent = at === undefined ? "" : `0x${(+at).toString(16)}: ${all.map(one => one.name).join(", ")}`;
};

document.querySelectorAll("svg .cell").forEach(it => {
  it.onclick = () => {
    const of = +it.closest("figure").dataset.of;
    let above = chosen;
    if (!above) return;
    while (above.above && !above.inside.some(one => one.of === of)) above = above.above;
    const found = above.inside.find(one => one.of === of && one.line === +it.dataset.kind);
    if (found) show(found);
  };
});

if (location.hash.includes("dark") || matchMedia("(prefers-color-scheme: dark)").matches) $("theme").click();
keys($("tree"), treeKeys);
keys($("hex"), hexKeys);

// Draws the page with the bit that a link names, or the first page.
function follow(hash) {
  const asked = /at=(\d+)/.exec(hash);
  return turn(asked ? pageOf(+asked[1]) : 0, asked ? +asked[1] : undefined);
}

document.querySelectorAll(".why a").forEach(it => (it.onclick = () => follow(it.hash)));
follow(location.hash).then(() => $("tree").focus({ preventScroll: true }));
