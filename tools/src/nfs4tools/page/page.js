// The page: what is shown now, and what the pointer, the keys and the address change of it.

const $ = (id) => document.getElementById(id);
/** The least entries that are shown, and the width of a page of paper. */
const LEAST = 10;
const PAPER = 1040;

const run = runOf(await unpacked($("data").textContent));
let view = viewOf("", run);
let mask = new Uint8Array(run.count);
let scale = null;
let width = null;

/** Draws all again: the address says what. */
function draw() {
  mask = selectedRows(view.filters, run);
  drawPicture();
  drawTable(run, mask, $("table"));
  drawRefusals(run, view, mask, $("refusals"));
  drawEntry(run, view, $("entry"));
  showFilters();
}

/** Draws the picture for what is shown now. */
function drawPicture() {
  const picture = $("picture");
  scale = scaleOf(run, view, width ?? Math.max(640, picture.clientWidth - 2));
  const named = namedBy(run, view.chosen);
  const found = gathered(run, view, scale, mask);
  const lines = run.count ? axisLines(run, view, scale) : [];
  const isIn = view.chosen !== null && view.from <= view.chosen && view.chosen < view.to;
  const cursor = isIn ? scale.middle(view.chosen) : null;
  const axis = axisSheet(lines, scale).svg(lines, cursor);
  axis.classList.add("axis");
  const sheets = sheetsOf(found, named).map((sheet) => sheet.svg(lines, cursor));
  picture.replaceChildren(patterns(), axis, ...sheets);
  showCounts(found);
}

/** The parts of the picture below the axis. */
function sheetsOf(found, named) {
  const { filters } = view;
  const sheets = [];
  for (const name of [...run.names, NOBODY]) {
    const isNamed = run.clients.some((it) => it.name === name && isClient(filters, name, it.number));
    if (isNamed || found.counts.has(name)) sheets.push(clientSheet(run, view, scale, found, named, name));
  }
  const lanes = sequenceLanes(run, view, scale, mask);
  if (lanes.length) sheets.push(sequenceSheet(view, scale, lanes));
  const bars = barsByFile(run, view, named);
  const refused = new Set([...found.refusals.keys()].map((key) => key.split("\n")[0]));
  for (const file of run.files) {
    if (!bars.has(file) && !refused.has(file)) continue;
    sheets.push(fileSheet(run, view, scale, found, named, file, bars.get(file) ?? []));
  }
  return sheets;
}

function showCounts(found) {
  const last = rowOf(run, view.to - 1)?.moment ?? 0;
  const span = `entries ${view.from} to ${view.to - 1}, moments ${rowOf(run, view.from)?.moment ?? 0} to ${last}`;
  const counts = `${counted(found.selected, "entry", "entries")} selected, ${found.refused} refused`;
  $("shown").textContent = run.count ? `${span}: ${counts}` : "no entry";
  $("by").textContent = `axis: ${view.by}`;
}

/** Shows the filters as they hold. */
function showFilters() {
  const form = $("filters").elements;
  for (const name of LISTS) form[name].value = "";
  for (const name of TEXTS) form[name].value = view.filters[name];
  const fault = faultOf(view.filters, run);
  $("wrong").hidden = fault === "";
  $("wrong").textContent = fault;
  const isAll = [...LISTS, ...TEXTS].every((name) => view.filters[name].length === 0);
  const selected = mask.reduce((sum, is) => sum + (is ? 1 : 0), 0);
  $("selected").textContent = isAll ? "" : `${selected} of ${counted(run.count, "entry", "entries")}`;
  const chips = LISTS.flatMap((name) => view.filters[name].map((value) => chip(name, value)));
  $("chips").replaceChildren(...chips);
}

/** A filter's value, as a button that takes it away. */
function chip(name, value) {
  const found = tag("button", { type: "button", title: "takes this filter away" }, `${name} ${value} ×`);
  found.onclick = () => go({ filters: { ...view.filters, [name]: view.filters[name].filter((it) => it !== value) } });
  return found;
}

/** Goes to another view, which the address has from now on. */
function go(change) {
  view = { ...view, ...change };
  keepAddress();
  draw();
}

/** The address of all says so if the page begins with another one. */
function keepAddress() {
  history.replaceState(null, "", `#${addressOf(view, run) || (run.begin ? "all" : "")}`);
}

/** Goes to another part of the run: the filters and lists stay. */
function move(from, to) {
  const span = clamp(Math.round(to - from), Math.min(LEAST, run.count), run.count);
  const begin = clamp(Math.round(from), run.first, run.first + run.count - span);
  view = { ...view, from: begin, to: begin + span };
  keepAddress();
  drawPicture();
}

function zoom(factor, middle = view.chosen ?? (view.from + view.to) / 2) {
  const at = clamp(middle, view.from, view.to);
  const part = (at - view.from) / (view.to - view.from);
  const span = clamp((view.to - view.from) * factor, Math.min(LEAST, run.count), run.count);
  move(at - part * span, at - part * span + span);
}

function pan(part) {
  const by = Math.max(1, (view.to - view.from) * Math.abs(part)) * Math.sign(part);
  move(view.from + by, view.to + by);
}

/** Chooses an entry, and shows where it is. */
function choose(entry) {
  if (!rowOf(run, entry)) return;
  const span = view.to - view.from;
  const isIn = view.from <= entry && entry < view.to;
  const from = isIn ? view.from : clamp(entry - (span >> 1), run.first, run.first + run.count - span);
  go({ chosen: entry, from, to: from + span });
  $("entry").scrollIntoView({ block: "nearest" });
  $("details").scrollTop = 0;
}

/** Chooses the next or last entry that is selected: any, or a refused one. */
function step(by, isWanted) {
  const begin = view.chosen ?? (by > 0 ? view.from - 1 : view.to);
  for (let entry = begin + by; rowOf(run, entry); entry += by) {
    if (mask[entry - run.first] && isWanted(rowOf(run, entry))) return choose(entry);
  }
  return undefined;
}

function changeAxis() {
  go({ by: view.by === "entries" ? "seconds" : "entries" });
}

const KEYS = {
  n: () => step(1, isRefused),
  p: () => step(-1, isRefused),
  ".": () => step(1, () => true),
  ",": () => step(-1, () => true),
  "+": () => zoom(0.5),
  "=": () => zoom(0.5),
  "-": () => zoom(2),
  0: () => move(run.first, run.first + run.count),
  ArrowLeft: () => pan(-0.25),
  ArrowRight: () => pan(0.25),
  s: changeAxis,
  Escape: () => go({ chosen: null }),
};

function keyPressed(event) {
  const isTyping = event.target.closest("input, select, textarea") !== null;
  if (isTyping || event.ctrlKey || event.metaKey || event.altKey || !KEYS[event.key]) return;
  event.preventDefault();
  KEYS[event.key]();
}

/** What is at the pointer: the last that was drawn there. */
function hitAt(event) {
  const svg = event.target.closest?.("#picture svg");
  if (!svg?.hits) return undefined;
  const box = svg.getBoundingClientRect();
  const [x, y] = [event.clientX - box.left, event.clientY - box.top];
  return svg.hits.findLast((it) => it.x <= x && x <= it.right && it.y <= y && y <= it.bottom);
}

function showTip(event) {
  const hit = drag ? undefined : hitAt(event);
  const tip = $("tip");
  tip.hidden = !hit;
  $("picture").style.cursor = hit ? "pointer" : "";
  if (!hit) return;
  tip.textContent = hit.words;
  tip.style.left = `${Math.min(event.clientX + 14, innerWidth - tip.offsetWidth - 6)}px`;
  tip.style.top = `${Math.min(event.clientY + 14, innerHeight - tip.offsetHeight - 6)}px`;
}

let drag = null;

/** Moves the picture with the pointer. */
function dragTo(event) {
  if (!drag) return;
  const by = (drag.x - event.clientX) * ((drag.to - drag.from) / scale.room);
  if (Math.abs(drag.x - event.clientX) > 3) drag.isMoved = true;
  if (drag.isMoved) move(drag.from + by, drag.to + by);
}

function dropped(event) {
  const isClick = drag && !drag.isMoved;
  drag = null;
  const hit = isClick ? hitAt(event) : undefined;
  if (hit) choose(hit.entry);
}

function wheeled(event) {
  if (!event.ctrlKey && !event.metaKey && !event.shiftKey) return;
  event.preventDefault();
  if (event.shiftKey) return pan(Math.sign(event.deltaY || event.deltaX) * 0.1);
  const x = event.clientX - $("picture").getBoundingClientRect().left;
  return zoom(event.deltaY > 0 ? 1.25 : 0.8, entryAt(run, view, scale, x));
}

function linkFollowed(event) {
  const link = event.target.closest("a[data-entry]");
  if (!link) return;
  event.preventDefault();
  choose(Number(link.dataset.entry));
}

/** Adds the values that were given to the lists of filters, and takes the other filters as they are. The axis shows the
 * entries of a new range. */
function filtersChanged() {
  const form = $("filters").elements;
  const filters = { ...view.filters };
  for (const name of LISTS) {
    const value = form[name].value.trim();
    if (value) filters[name] = [...new Set([...filters[name], asFilter(name, value)])];
  }
  for (const name of TEXTS) filters[name] = form[name].value.trim();
  const isSame = filters.entries === view.filters.entries;
  go({ filters, ...(isSame ? {} : spanOf(filters.entries, run)) });
}

/** Fills what can be chosen, and says which run it is. */
function fillForms() {
  const form = $("filters").elements;
  for (const name of run.names) form.client.append(new Option(name));
  for (const status of run.statuses) form.status.append(new Option(status));
  for (const file of run.files) $("files").append(new Option(file));
  for (const owner of run.owners) $("owners").append(new Option(owner));
  const span = `entries ${run.first} to ${run.first + run.count - 1} of ${run.total}`;
  const words = run.count < run.total ? span : counted(run.count, "entry", "entries");
  $("title").textContent = `${run.title}: ${words}, ${run.rows.at(-1)?.moment ?? 0} s, lease ${run.lease} s`;
  $("end").hidden = run.end === null;
  $("end").textContent = run.end ?? "";
  drawLegend($("legend"));
}

/** What the pointer, the keys and the window do. */
function listen() {
  const picture = $("picture");
  picture.addEventListener("pointermove", showTip);
  picture.addEventListener("pointerleave", () => ($("tip").hidden = true));
  picture.addEventListener("pointerdown", (event) => {
    if (event.button === 0) drag = { x: event.clientX, from: view.from, to: view.to, isMoved: false };
  });
  addEventListener("pointermove", dragTo);
  addEventListener("pointerup", dropped);
  picture.addEventListener("wheel", wheeled, { passive: false });
  $("details").addEventListener("click", linkFollowed);
  addEventListener("keydown", keyPressed);
  addEventListener("hashchange", readAddress);
  addEventListener("resize", drawPicture);
  addEventListener("beforeprint", () => ((width = PAPER), drawPicture()));
  addEventListener("afterprint", () => ((width = null), drawPicture()));
  const keys = { out: "-", in: "+", left: "ArrowLeft", right: "ArrowRight", whole: "0", by: "s" };
  for (const [id, key] of Object.entries(keys)) $(id).onclick = KEYS[key];
  $("filters").addEventListener("change", filtersChanged);
  $("filters").addEventListener("submit", (event) => (event.preventDefault(), filtersChanged()));
  $("filters").addEventListener("reset", (event) => {
    event.preventDefault();
    go({ filters: ALL, ...(view.filters.entries ? spanOf("", run) : {}) });
  });
}

function readAddress() {
  view = viewOf(location.hash.slice(1) || run.begin || "", run);
  draw();
}

fillForms();
listen();
readAddress();
document.documentElement.dataset.drawn = "yes";
