"use strict";
const byId = (id) => document.getElementById(id);
const [find, found, tree, where, uses] = ["find", "found", "tree", "where", "uses"].map(byId);
const MOST_FOUND = 300;
// Where a link leads stands so far below the top, under the bar (scroll-padding-top of html).
const TOP = 58;
// What is so many pixels from sight is unpacked.
const MARGIN = 900;

function element(name, text, href) {
  const made = document.createElement(name);
  made.textContent = text;
  if (href) made.setAttribute("href", href);
  return made;
}

// ---- parts that are packed: they are unpacked when they are seen, or when something leads to them

async function unpackedText(packed) {
  const bytes = Uint8Array.from(atob(packed), (char) => char.charCodeAt(0));
  const stream = new Blob([bytes]).stream().pipeThrough(new DecompressionStream("deflate"));
  return new Response(stream).text();
}

const working = new Map();

// Puts the lines of a chunk in its place, and the uses of what they declare to the others.
async function unpackChunk(chunk) {
  if (!chunk.isConnected) return;
  if (!working.has(chunk)) working.set(chunk, replaceChunk(chunk));
  await working.get(chunk);
}

async function replaceChunk(chunk) {
  const [lines, itsUses] = (await unpackedText(chunk.dataset.packed)).split("\n<!-- uses -->\n");
  const made = element("div", "");
  made.className = "chunk";
  made.style.setProperty("--n", chunk.style.getPropertyValue("--n"));
  made.innerHTML = lines;
  if (isFolded) foldIn(made, false, ["Method"]);
  uses.insertAdjacentHTML("beforeend", itsUses);
  chunk.replaceWith(made);
}

async function unpackBranch(fold) {
  const branch = fold.querySelector(":scope > .branch");
  if (!branch) return;
  const html = await unpackedText(branch.dataset.packed);
  if (branch.isConnected) branch.outerHTML = html;
  leaveTabs(fold);
}

const chunks = [...document.querySelectorAll("pre.chunk")];
const sight = new IntersectionObserver((entries) => {
  for (const entry of entries) {
    if (!entry.isIntersecting) continue;
    sight.unobserve(entry.target);
    unpackChunk(entry.target).then(askWhere);
  }
}, { rootMargin: MARGIN + "px" });

function chunkOf(line) {
  let [low, high] = [0, chunks.length];
  while (low < high) {
    const middle = (low + high) >> 1;
    if (+chunks[middle].dataset.line <= line) low = middle + 1;
    else high = middle;
  }
  const chunk = chunks[low - 1];
  return chunk && line < +chunk.dataset.line + +chunk.dataset.count ? chunk : null;
}

// ---- what the search looks through, and where the paths are declared

let nodes = null;
let nodesByPath = null;

async function allNodes() {
  if (nodes) return nodes;
  const text = await unpackedText(byId("index").textContent);
  nodes = text.split("\n").filter(Boolean).map((line) => {
    const [path, kind, number, words] = line.split("\t");
    return { path, kind, line: +number, key: path.slice(1), words: words.toUpperCase() };
  });
  nodesByPath = new Map(nodes.map((node) => [node.path, node]));
  return nodes;
}

// The element of an anchor: of a path or of a line's number.
async function elementOf(id) {
  const there = byId(id);
  if (there) return there;
  let line = /^[0-9]+$/.test(id) ? +id : 0;
  if (!line && id.startsWith("\\")) {
    await allNodes();
    line = (nodesByPath.get(id) || { line: 0 }).line;
  }
  const chunk = line && chunkOf(line);
  if (chunk) await unpackChunk(chunk);
  return byId(id);
}

// ---- finding: all words that are typed have to fit; what they fit best comes first

const padded = (segment) => segment.padEnd(4, "_").slice(0, Math.max(4, segment.length));

// What a word may be: a path in any form, the begin of one, or a text.
function wordForms(word) {
  const text = word.toUpperCase();
  const segments = text.replace(/^[\\^]+/, "").split(".").filter(Boolean);
  const whole = segments.map(padded).join(".");
  const begin = segments.map((segment, at) => (at < segments.length - 1 ? padded(segment) : segment)).join(".");
  return { text, whole, begin };
}

// How badly a word fits: 0 is the path itself, and 9 not at all.
function misfit(node, { text, whole, begin }) {
  const { key, kind, words } = node;
  if (whole && key === whole) return 0;
  if (whole && key.endsWith("." + whole)) return 1;
  if (words && words.split(" ").includes(text)) return 2;
  if (kind.toUpperCase().split(" ")[0] === text) return 3;
  if (begin && (key.startsWith(begin) || key.includes("." + begin))) return 4;
  if (begin && key.includes(begin)) return 5;
  if (text.length > 2 && words.includes(text)) return 6;
  return 9;
}

function fittingNodes(text) {
  const forms = text.split(/\s+/).filter(Boolean).map(wordForms);
  const fitting = [];
  for (const node of nodes) {
    const misfits = forms.map((form) => misfit(node, form));
    if (misfits.every((value) => value < 9)) fitting.push([misfits.reduce((sum, value) => sum + value, 0), node]);
  }
  fitting.sort((one, other) => one[0] - other[0]);
  return fitting.map((pair) => pair[1]);
}

function foundNode(node, forms) {
  const line = element("p", "");
  const link = element("a", "", "#" + node.path);
  const begin = forms[forms.length - 1].begin;
  const at = begin ? node.key.lastIndexOf(begin) + 1 : 0;
  link.textContent = at ? "" : node.path;
  if (at) link.append(node.path.slice(0, at), element("mark", begin), node.path.slice(at + begin.length));
  const ids = node.words.replace(/ .*/, "");
  line.append(link, " " + node.kind, ...(ids ? [" ", element("small", ids)] : []));
  return line;
}

async function showFound() {
  const text = find.value;
  const forms = text.split(/\s+/).filter(Boolean).map(wordForms);
  if (forms.length) await allNodes();
  if (text !== find.value) return;
  found.hidden = !forms.length;
  tree.hidden = !found.hidden;
  if (found.hidden) return;
  tree.closest("nav").scrollTop = 0;
  const fitting = fittingNodes(text);
  const lines = fitting.slice(0, MOST_FOUND).map((node) => foundNode(node, forms));
  const more = fitting.length - lines.length;
  found.replaceChildren(element("p", fitting.length + (fitting.length === 1 ? " path" : " paths")), ...lines);
  if (more) found.append(element("p", "and " + more + " more"));
}

function leaveFind() {
  find.value = "";
  showFound();
  find.blur();
}

// ---- where a link leads: what hides it is opened, and its path shown in the tree

function openAround(inner) {
  for (let fold = inner.closest("details"); fold; fold = fold.parentNode.closest("details")) fold.open = true;
}

// Where the last jump led, and how far the page was scrolled then.
let jump = null;

function target() {
  try {
    return decodeURIComponent(location.hash.slice(1));
  } catch {
    return "";
  }
}

async function reveal() {
  const id = target();
  const aim = id && (await elementOf(id));
  if (!aim || id !== target()) return;
  openAround(aim);
  await bringToTop(aim);
  const line = lineOf(aim);
  if (line) showInTree(pathOf(line));
}

// The chunks in sight, or nearly, that are packed still.
function chunksNear() {
  return [...document.querySelectorAll("pre.chunk")].filter((chunk) => {
    const { top, bottom } = chunk.getBoundingClientRect();
    return bottom > -MARGIN && top < innerHeight + MARGIN;
  });
}

// Scrolls to an element. What comes into sight may change its height, and then it is done again.
async function bringToTop(aim) {
  for (let times = 0; times < 9; times++) {
    aim.scrollIntoView();
    await new Promise((done) => requestAnimationFrame(() => requestAnimationFrame(done)));
    const near = chunksNear();
    if (!near.length && times > 1) break;
    await Promise.all(near.map(unpackChunk));
  }
  for (const entry of document.querySelectorAll(".target")) entry.classList.remove("target");
  const line = lineOf(aim);
  if (line && !line.matches(":target")) line.classList.add("target");
  jump = { line, at: scrollY };
  showWhere();
}

// The link of a path in the tree; what hides it is unpacked.
async function treeLink(path) {
  const segments = path.slice(1).split(".");
  for (let count = 1; count < segments.length; count++) {
    const above = "\\" + segments.slice(0, count).join(".");
    const head = linkIn(above) || byId(above);
    const fold = head && tree.contains(head) && head.closest("details");
    if (fold) await unpackBranch(fold);
  }
  return linkIn(path);
}

const linkIn = (path) => tree.querySelector('a[href="' + CSS.escape("#" + path) + '"]');

async function showInTree(path) {
  const old = tree.querySelector("[aria-current]");
  if (old) old.removeAttribute("aria-current");
  const link = path && (await treeLink(path));
  if (!link) return;
  openAround(link.parentNode.tagName === "SUMMARY" ? link.closest("details").parentNode : link);
  link.setAttribute("aria-current", "true");
  takeTab(link);
  if (!tree.hidden) seeInTree(link);
}

// Scrolls the navigation alone: in a narrow window it stands above the text.
function seeInTree(link) {
  const navigation = tree.closest("nav");
  const [row, frame] = [link, navigation].map((one) => one.getBoundingClientRect());
  const top = navigation.querySelector("header").getBoundingClientRect().bottom;
  if (row.top < top || row.bottom > frame.bottom - 30) navigation.scrollTop += row.top - (top + frame.bottom) / 2;
}

// ---- the place at the top: the file, and the path that stands there or around

const lineOf = (inner) => inner.closest(".block p, .block summary, #tables tr");

function declaredBy(line) {
  const name = line.querySelector(":scope > dfn:is([id], .again)");
  return name ? name.id || name.title : "";
}

function pathOf(line) {
  if (!line.closest(".block")) return "";
  const own = declaredBy(line);
  return own || pathAround(line);
}

function pathAround(inner) {
  for (let fold = inner.closest("details"); fold; fold = fold.parentNode.closest("details")) {
    const head = fold.querySelector(":scope > summary");
    const path = head && declaredBy(head);
    if (path) return path;
    const scope = head && head.textContent.trim().startsWith("Scope") && head.querySelector(":scope > a");
    if (scope) return scope.getAttribute("href").slice(1);
  }
  return "";
}

function fileOf(line) {
  const block = line.closest(".block");
  if (block) return block.dataset.file;
  const cell = line.querySelector("td");
  return cell ? cell.textContent : "";
}

const file = element("span", "");
const here = element("a", "");
let isAsked = false;

function topLine() {
  if (jump && jump.line && jump.line.isConnected && Math.abs(scrollY - jump.at) < 3) return jump.line;
  const bar = where.getBoundingClientRect();
  for (const left of [120, 60]) {
    const top = document.elementFromPoint(bar.left + left, Math.max(TOP, bar.bottom + 6));
    const line = top && lineOf(top);
    if (line) return line;
    const chunk = top && top.closest(".block");
    if (chunk) return top;
  }
  return null;
}

function showWhere() {
  isAsked = false;
  const line = topLine();
  const path = line && line.closest(".block") ? (line.matches("p, summary") ? pathOf(line) : pathAround(line)) : "";
  file.textContent = line ? fileOf(line) : "";
  here.textContent = path;
  here.setAttribute("href", path ? "#" + path : "#");
}

function askWhere() {
  if (!isAsked) requestAnimationFrame(showWhere);
  isAsked = true;
}

// ---- folding

let isFolded = false;

function foldIn(inner, isOpen, terms) {
  for (const block of inner.querySelectorAll("details")) {
    if (terms.includes(block.firstElementChild.textContent.trim().split(" ")[0])) block.open = isOpen;
  }
}

function fold(isOpen, terms) {
  isFolded = !isOpen;
  for (const block of document.querySelectorAll(".block")) foldIn(block, isOpen, terms);
}

function button(text, act) {
  const made = element("button", text);
  made.type = "button";
  made.addEventListener("click", act);
  return made;
}

// ---- the uses of a declaration, shown beside it with their lines

let pop = null;

function closePop() {
  if (pop) pop.remove();
  pop = null;
}

async function useLine(link) {
  const code = document.createElement("code");
  const there = await elementOf(link.textContent);
  const line = there ? there.cloneNode(true) : element("p", "");
  for (const note of line.querySelectorAll(".note, .say")) note.remove();
  code.append(element("a", link.textContent, link.getAttribute("href")), line.textContent.trim());
  return code;
}

async function showUses(note) {
  closePop();
  const made = byId(note.getAttribute("href").slice(1)).cloneNode(true);
  made.id = "pop";
  for (const item of made.querySelectorAll("li")) {
    const links = [...item.querySelectorAll("a")];
    item.append(...(await Promise.all(links.map(useLine))));
    for (const link of links) link.remove();
  }
  closePop();
  pop = made;
  document.body.append(pop);
  const place = note.getBoundingClientRect();
  const left = Math.min(place.left, document.documentElement.clientWidth - pop.offsetWidth - 8);
  pop.style.left = Math.max(8, left) + scrollX + "px";
  pop.style.top = place.bottom + 4 + scrollY + "px";
}

// ---- the tree by keys: one of its links has the tab stop, and arrows lead to the others

let stop = null;

function leaveTabs(inner) {
  for (const link of inner.querySelectorAll("a, summary")) link.tabIndex = -1;
}

function takeTab(link) {
  if (stop) stop.tabIndex = -1;
  stop = link;
  stop.tabIndex = 0;
}

// The rows that are seen, as their links; of a path that isn't declared its head.
function treeStops() {
  return [...tree.querySelectorAll("p > a:first-child, summary")]
    .map((one) => (one.tagName === "SUMMARY" ? one.querySelector(":scope > a") || one : one))
    .filter((one) => one.getClientRects().length);
}

async function onTreeKey(event) {
  const now = event.target.closest("a, summary");
  const head = now && now.closest("summary");
  const fold = head && head.parentNode;
  const move = { ArrowDown: 1, ArrowUp: -1 }[event.key];
  if (event.key === "ArrowRight" && fold && !fold.open) {
    await unpackBranch(fold);
    fold.open = true;
  } else if (event.key === "ArrowLeft" && fold && fold.open) {
    fold.open = false;
  } else if (event.key === "ArrowLeft") {
    const above = (fold || now).parentNode.closest("details");
    const summary = above && above.querySelector(":scope > summary");
    if (summary) focusStop(summary.querySelector(":scope > a") || summary);
  } else if (move || event.key === "ArrowRight") {
    const stops = treeStops();
    const next = stops[stops.indexOf(now.tagName === "A" ? now : now.querySelector(":scope > a") || now) + (move || 1)];
    if (next) focusStop(next);
  } else {
    return;
  }
}

function focusStop(link) {
  takeTab(link);
  link.focus();
}

// ---- keys and clicks

function step(by) {
  const links = [...found.querySelectorAll("a")];
  const at = links.indexOf(document.activeElement) + by;
  (at < 0 ? find : links[Math.min(at, links.length - 1)] || find).focus();
}

function onKey(event) {
  const first = found.querySelector("a");
  const isInFind = document.activeElement === find || found.contains(document.activeElement);
  if (event.key.startsWith("Arrow") && tree.contains(document.activeElement)) onTreeKey(event);
  else if (event.key === "/" && document.activeElement !== find && !event.ctrlKey && !event.metaKey) find.select();
  else if (event.key === "Escape" && pop) closePop();
  else if (event.key === "Escape") leaveFind();
  else if (isInFind && event.key === "ArrowDown") step(1);
  else if (isInFind && event.key === "ArrowUp") step(-1);
  else if (document.activeElement === find && event.key === "Enter" && first) first.click();
  else return;
  event.preventDefault();
}

function onClick(event) {
  const link = event.target.closest("a");
  const isUse = link && link.matches('.note[href^="#u"]');
  const kind = event.target.closest(".kinds button");
  if (kind) {
    find.value = kind.value;
    showFound();
    find.focus();
  }
  if (isUse) {
    event.preventDefault();
    showUses(link);
  } else if (!pop || !pop.contains(event.target) || link) {
    closePop();
  }
  if (link && link.hash === location.hash && !isUse) reveal();
}

find.hidden = where.hidden = false;
find.placeholder = "Find a path, an id, a kind: press /";
where.append(
  file,
  here,
  button("Fold methods", () => fold(false, ["Method"])),
  button("Unfold all", () => fold(true, ["Method", "Scope", "Device", "If", "Else", "While", "Processor", "Field"])),
);
leaveTabs(tree);
const firstStop = treeStops()[0];
if (firstStop) takeTab(firstStop);
for (const chunk of chunks) sight.observe(chunk);
tree.addEventListener("toggle", (event) => event.target.open && unpackBranch(event.target), true);
find.addEventListener("input", showFound);
addEventListener("keydown", onKey);
addEventListener("click", onClick);
addEventListener("hashchange", reveal);
addEventListener("scroll", askWhere, { passive: true });
reveal();
askWhere();
