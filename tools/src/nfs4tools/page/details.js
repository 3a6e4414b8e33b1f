// What stands beside the picture: the table of statuses, the chosen entry with its reason, and the selected refusals.

/** So many refusals are listed before all of them are asked for; so many calls of a client before the chosen one. */
const LISTED = 100;
const BEFORE = 8;
/** With so many clients the table has a line for each client and status. */
const COLUMNS = 6;
/** So many letters of an entry's words are shown at once. */
const LETTERS = 600;

function tag(name, attributes, ...inside) {
  const found = document.createElement(name);
  for (const [key, value] of Object.entries(attributes)) found.setAttribute(key, value);
  found.append(...inside);
  return found;
}

/** A link to an entry, which is followed by `page.js`. */
function linkTo(entry, words = String(entry)) {
  return tag("a", { href: `#entry=${entry}`, "data-entry": entry }, words);
}

/** How often each client was answered each status, and the first entry of each. */
function countsOf(rows, mask) {
  const found = new Map();
  rows.forEach((row, place) => {
    if (mask[place] !== TAKEN || !isRefused(row)) return;
    const [name, mine] = [nameOf(row), found.get(row.status) ?? new Map()];
    found.set(row.status, mine);
    if (!mine.has(name)) mine.set(name, { count: 0, first: row.entry });
    mine.get(name).count += 1;
  });
  return new Map([...found].sort(([one], [other]) => (one < other ? -1 : 1)));
}

function drawTable(run, mask, place) {
  const counts = countsOf(run.rows, mask);
  const names = [...run.names, NOBODY].filter((name) => [...counts.values()].some((mine) => mine.has(name)));
  const title = tag("h2", {}, "Refusals: how many, and the first");
  if (!counts.size) return place.replaceChildren(title, tag("p", {}, "none is selected"));
  const table = names.length > COLUMNS ? longTable(counts) : wideTable(run, counts, names);
  return place.replaceChildren(title, tag("div", { class: "wide" }, table));
}

/** The statuses as lines, and the clients as columns. */
function wideTable(run, counts, names) {
  const columns = names.map((name) => tag("th", { scope: "col", class: `hue ${run.colours.get(name) ?? "c7"}` }, name));
  const lines = [...counts].map(([status, mine]) =>
    tag("tr", {}, statusHead(status), ...names.map((name) => tag("td", {}, ...cell(mine.get(name))))),
  );
  return tag("table", {}, tag("tr", {}, tag("td", {}), ...columns), ...lines);
}

function cell(found) {
  return found ? [String(found.count), tag("small", {}, linkTo(found.first))] : [];
}

/** A line for each client and status, those that came most first. */
function longTable(counts) {
  const all = [...counts].flatMap(([status, mine]) => [...mine].map(([name, found]) => ({ status, name, ...found })));
  all.sort((one, other) => other.count - one.count || one.first - other.first);
  const lines = all.map((it) =>
    tag("tr", {}, statusHead(it.status), tag("td", {}, ...cell(it)), tag("td", { class: "name" }, it.name)),
  );
  return tag("table", {}, ...lines);
}

/** A status, with the form of its ticks. */
function statusHead(status) {
  const kind = KIND_OF[shortStatus(status)] ?? "other";
  return tag("th", { scope: "row" }, glyph(kind), ` ${shortStatus(status)}`);
}

function glyph(kind) {
  const form = element("path", { class: kind, d: FORMS[kind](5, 5) });
  return element("svg", { width: 10, height: 10, style: "display: inline", "aria-hidden": true }, form);
}

/** A sentence whose entries are links, and whose states are bold, as they are in the picture. */
function sentence(why) {
  const parts = why.text.split(/(entry \d+|state \d+)/);
  return parts.map((part) => {
    const [what, number] = part.split(" ");
    if (/^entry \d+$/.test(part)) return linkTo(number, part);
    return what === "state" && why.states.includes(Number(number)) ? tag("b", {}, part) : part;
  });
}

/** An entry in a list: its words and its reason. */
function entryItem(row, chosen, isWhole = false) {
  const all = row.words ?? `moment ${row.moment}, ${row.file ?? "no file"}: ${row.operation} ${row.status ?? ""}`;
  const words = !isWhole && all.length > LETTERS ? `${all.slice(0, LETTERS)} …` : all;
  const line = tag("code", isRefused(row) ? { class: "refused" } : {}, linkTo(row.entry), `: ${words}`);
  const item = tag("li", { "data-row": row.entry, class: row.entry === chosen ? "chosen" : "" }, line);
  if (row.why) item.append(tag("div", { class: "reason" }, ...sentence(row.why)));
  return item;
}

/** The chosen entry: the states that its reason names, its sequence ids, and what its client sent before. */
function drawEntry(run, view, place) {
  place.hidden = view.chosen === null;
  if (view.chosen === null) return place.replaceChildren();
  const row = rowOf(run, view.chosen);
  const parts = titled(`Entry ${row.entry}, of ${nameOf(row)}`, [entryItem(row, row.entry, true)]);
  const named = (row.why?.states ?? []).map((state) => run.barOf.get(state)).filter(Boolean);
  parts.push(...titled("The states that it names", named.map((bar) => barItem(run, bar))));
  const ids = run.sequencesOf.get(row.entry) ?? [];
  parts.push(...titled("Sequence ids", ids.map((it) => tag("li", {}, sequenceWords(it)))));
  const before = lastOf(run, row).map((it) => entryItem(it, null));
  return place.replaceChildren(...parts, ...titled(`Before it, of ${nameOf(row)}`, before));
}

/** A list with its title; nothing, if the list is empty. */
function titled(title, items) {
  return items.length ? [tag("h2", {}, title), tag("ol", {}, ...items)] : [];
}

function barItem(run, bar) {
  const words = barWords(run, bar).replaceAll("\n", "; ");
  return tag("li", {}, tag("b", {}, words), " ", linkTo(bar.begin, "its begin"));
}

function sequenceWords(it) {
  const due = it.due === null ? "any may come" : `${it.due} is wanted`;
  return `${it.kind} owner "${it.owner}" of client ${it.client}: ${due}, ${it.sent} came: ${it.outcome}`;
}

/** The last rows of the row's client before it. */
function lastOf(run, row) {
  const found = [];
  for (let at = row.entry - run.first - 1; at >= 0 && found.length < BEFORE; at -= 1) {
    if (nameOf(run.rows[at]) === nameOf(row)) found.unshift(run.rows[at]);
  }
  return found;
}

/** The refusals that are selected: the first ones, or all. */
function drawRefusals(run, view, mask, place, areAll = false) {
  const rows = run.rows.filter((row, at) => mask[at] === TAKEN && isRefused(row));
  const shown = areAll ? rows : rows.slice(0, LISTED);
  const list = tag("ol", { "data-count": rows.length }, ...shown.map((row) => entryItem(row, view.chosen)));
  const parts = [tag("h2", {}, counted(rows.length, "refusal")), list];
  if (shown.length < rows.length) {
    const button = tag("button", { class: "all" }, `list all ${rows.length}`);
    button.onclick = () => drawRefusals(run, view, mask, place, true);
    parts.push(button);
  }
  place.replaceChildren(...parts);
}

/** What the forms and colours of the picture say. */
function drawLegend(place) {
  const shapes = [
    ["hue access1 c7", "open for READ"],
    ["hue access2 c7", "for WRITE"],
    ["hue access3 c7", "for both"],
    ["deny", "which denies"],
    ["lock", "lock"],
    ["delegation", "delegation"],
    ["recalled", "recalled"],
    ["bold-bar", "named by the chosen entry's reason"],
  ];
  const kinds = Object.entries(KINDS).map(([kind, words]) => tag("span", {}, glyph(kind), words));
  const bars = shapes.map(([look, words]) => {
    const box = element("path", { class: look, d: "M1.5 1.5h19v8h-19z" });
    return tag("span", {}, element("svg", { width: 22, height: 11, "aria-hidden": true }, box), words);
  });
  const begin = element("path", { class: "begun", d: FORMS.order(5, 5).replace(/.*/, "M2 0l5 5l-5 5z") });
  const end = element("path", { class: "ended", d: "M1 1l8 8m0 -8l-8 8" });
  const marks = [[begin, "client confirmed"], [end, "client ends"]].map(([form, words]) =>
    tag("span", {}, element("svg", { width: 10, height: 10, "aria-hidden": true }, form), words),
  );
  place.replaceChildren(tag("b", {}, "refusals:"), ...kinds, tag("b", {}, "states:"), ...bars, ...marks);
}
