// What is selected: the filters of tools/explain, by the values of rows; and the address, which has them.

/** Filters with names, of which an entry has to match one; and the others, which are texts. */
const LISTS = ["client", "file", "owner", "status"];
const TEXTS = ["entries", "moments", "context"];
const ALL = { client: [], file: [], owner: [], status: [], entries: "", moments: "", context: "" };

/** A range FROM-TO, FROM-, -TO or one number, with both ends; or null if the text is none. */
function rangeOf(text) {
  const found = /^(\d*)(-?)(\d*)$/.exec(text);
  if (found === null || text === "" || text === "-") return null;
  const [, first, isOpen, last] = found;
  const range = [Number(first || 0), last ? Number(last) : isOpen ? Infinity : Number(first)];
  return range[1] < range[0] ? null : range;
}

/** What is wrong with the filters, as text, or an empty one. */
function faultOf(filters, run) {
  const there = { client: run.names, file: run.files, owner: run.owners, status: run.statuses };
  for (const name of LISTS) {
    const isThere = (it) => there[name].includes(it) || (name === "client" && run.numbers.has(it));
    const missing = filters[name].find((it) => !isThere(it));
    if (missing !== undefined) return `no entry has the ${name} "${missing}"`;
  }
  for (const name of ["entries", "moments"]) {
    const isWrong = filters[name] && rangeOf(filters[name]) === null;
    if (isWrong) return `${name}: ${filters[name]} is no FROM-TO, such as 60-130`;
  }
  return filters.context && !/^\d+$/.test(filters.context) ? `context: ${filters.context} is no number` : "";
}

/** Whether the list has one of the values, or is empty. */
function hasOne(list, ...values) {
  return list.length === 0 || values.some((it) => list.includes(it));
}

function isWithin(text, number) {
  const range = text && rangeOf(text);
  return !range || (range[0] <= number && number <= range[1]);
}

/** Whether the filters take the row, without their context. */
function takes(filters, row) {
  return (
    isWithin(filters.entries, row.entry) &&
    isWithin(filters.moments, row.moment) &&
    hasOne(filters.client, row.client, row.number === null ? null : String(row.number)) &&
    hasOne(filters.file, row.file) &&
    hasOne(filters.status, shortStatus(row.status)) &&
    hasOne(filters.owner, ...row.owners)
  );
}

/** For each row whether the filters take it, or it is in the context of such a row, or neither. */
const TAKEN = 1;
const AROUND = 2;

function selectedRows(filters, run) {
  const found = new Uint8Array(run.count);
  if (faultOf(filters, run)) return found;
  const taken = run.rows.map((row) => takes(filters, row));
  const context = Number(filters.context || 0);
  taken.forEach((is, place) => {
    if (is && context) found.fill(AROUND, Math.max(0, place - context), place + context + 1);
  });
  taken.forEach((is, place) => {
    if (is) found[place] = TAKEN;
  });
  return found;
}

/** The address of a view: its filters, the entries that it shows, the axis and the chosen entry. */
function addressOf(view, run) {
  const found = new URLSearchParams();
  for (const name of LISTS) for (const value of view.filters[name]) found.append(name, value);
  for (const name of TEXTS) if (view.filters[name]) found.set(name, view.filters[name]);
  const span = spanOf(view.filters.entries, run);
  if (view.from !== span.from || view.to !== span.to) found.set("view", `${view.from}-${view.to - 1}`);
  if (view.by !== "entries") found.set("by", view.by);
  if (view.chosen !== null) found.set("entry", view.chosen);
  return found.toString().replaceAll("%2F", "/");
}

/** The entries that the axis shows for a range: from the first to before `to`. Any other text is the whole run. */
function spanOf(text, run) {
  const last = run.first + run.count;
  const [from, to] = rangeOf(text) ?? [run.first, Infinity];
  const begin = Math.min(Math.max(from, run.first), Math.max(run.first, last - 1));
  return { from: begin, to: Math.max(begin + 1, Math.min(to + 1, last)) };
}

/** The view of an address. Its axis shows the entries that are selected, unless it says others. */
function viewOf(address, run) {
  const given = new URLSearchParams(address);
  const lists = LISTS.map((name) => [name, given.getAll(name).map((value) => asFilter(name, value))]);
  const texts = TEXTS.map((name) => [name, given.get(name) ?? ""]);
  const chosen = /^\d+$/.test(given.get("entry") ?? "") ? Number(given.get("entry")) : null;
  return {
    filters: Object.fromEntries([...lists, ...texts]),
    ...spanOf(given.get("view") ?? given.get("entries") ?? "", run),
    by: given.get("by") === "seconds" ? "seconds" : "entries",
    chosen: chosen !== null && rowOf(run, chosen) ? chosen : null,
  };
}

/** A value of a filter as rows have it: a path from the root, a status without its beginning. */
function asFilter(name, value) {
  if (name === "file") return `/${value.replace(/^\/+|\/+$/g, "")}`;
  return name === "status" ? shortStatus(value.toUpperCase()) : value;
}
