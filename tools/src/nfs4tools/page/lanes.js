// What is to be drawn of a view: what each client sent, and for each file and client what stood and what was refused.

/** The pixels of a bar of the counts, and of refusals that are drawn as one tick. */
const BIN = 4;
const TICK = 6;
/** So many rows of bars are as high as their names want; more of them are lower. */
const ROWS = 8;
/** The owners' sequence ids are shown for at most so many entries, of which each has so many pixels. */
const ENTRIES_WITH_IDS = 60;
const ROOM_OF_ID = 16;

/** Whether the filters take what is a client's. */
function isClient(filters, name, number) {
  return hasOne(filters.client, name, String(number));
}

/** The states that the chosen entry's reason names, and the entries. */
function namedBy(run, chosen) {
  const why = chosen === null ? undefined : rowOf(run, chosen)?.why;
  return { states: new Set(why?.states), entries: new Set(why?.entries) };
}

/** What is there of the selected rows: counts by clients, and refusals by files and clients. */
function gathered(run, view, scale, mask) {
  const found = { counts: new Map(), refusals: new Map(), of: new Map(), selected: 0, refused: 0 };
  for (let entry = view.from; entry < view.to; entry += 1) {
    if (!mask[entry - run.first]) continue;
    const row = rowOf(run, entry);
    const kind = isRefused(row) ? kindOf(row) : "ok";
    found.selected += 1;
    found.refused += kind !== "ok" && mask[entry - run.first] === TAKEN ? 1 : 0;
    const name = nameOf(row);
    if (row.status !== null) count(found.counts, name, scale, entry, kind);
    if (kind === "ok") continue;
    listIn(found.of, name).push(entry);
    if (row.file !== null) listIn(found.refusals, `${row.file}\n${name}`).push(entry);
  }
  return found;
}

/** Counts a call in the bin where it stands. */
function count(counts, name, scale, entry, kind) {
  const bins = Math.ceil(scale.room / BIN) + 1;
  if (!counts.has(name)) counts.set(name, {});
  const mine = counts.get(name);
  mine[kind] ??= new Uint32Array(bins);
  mine[kind][clamp(Math.floor((scale.middle(entry) - GUTTER) / BIN), 0, bins - 1)] += 1;
}

function listIn(lists, key) {
  if (!lists.has(key)) lists.set(key, []);
  return lists.get(key);
}

/** Refusals in the pixels where they stand, by their kinds: each mark has the entries that it stands for. */
function ticksOf(run, scale, entries) {
  const kinds = new Map();
  for (const entry of entries) {
    const marks = listIn(kinds, kindOf(rowOf(run, entry)));
    const x = scale.middle(entry);
    const last = marks.at(-1);
    if (last && x - last.x < TICK) last.entries.push(entry);
    else marks.push({ x, entries: [entry] });
  }
  const lists = Object.keys(KINDS).filter((kind) => kinds.has(kind)).map((kind) => ({ kind, marks: kinds.get(kind) }));
  return withRows(lists);
}

/** The kinds in as few rows as they need, if no tick of one may hide that of another. */
function withRows(lists) {
  const rows = [];
  for (const list of lists) {
    const taken = new Set(list.marks.flatMap(({ x }) => [Math.floor(x / TICK), Math.floor(x / TICK) + 1]));
    const free = rows.findIndex((row) => ![...taken].some((place) => row.has(place)));
    list.row = free < 0 ? rows.length : free;
    rows[list.row] = new Set([...(rows[list.row] ?? []), ...taken]);
  }
  return lists;
}

/** The bars of a file that stand in the view, by the names of their clients. */
function barsByFile(run, view, named) {
  const { filters } = view;
  const taken = run.bars.filter((bar) => {
    const isShown =
      isClient(filters, run.nameOf.get(bar.client), bar.client) &&
      hasOne(filters.owner, bar.owner) &&
      hasOne(filters.file, bar.file);
    return (isShown || named.states.has(bar.state)) && bar.begin < view.to && (bar.end ?? Infinity) > view.from;
  });
  return grouped(taken, (bar) => bar.file);
}

/** Rows of bars, such that those of one row don't meet: each bar with its row. */
function rowsOf(bars) {
  const ends = [];
  return bars.map((bar) => {
    const free = ends.findIndex((end) => end <= bar.begin);
    const row = free < 0 ? ends.length : free;
    ends[row] = bar.end ?? Infinity;
    return { bar, row };
  });
}

/** The parts of a bar in the view: each from an entry to an entry, with what it was. */
function partsOf(run, view, bar) {
  const end = bar.end ?? run.first + run.count;
  return bar.parts
    .map(([from, gives, denies], place) => ({ from, to: bar.parts[place + 1]?.[0] ?? end, gives, denies }))
    .filter((part) => part.to > view.from && part.from < view.to)
    .map((part) => ({ ...part, from: Math.max(part.from, view.from), to: Math.min(part.to, view.to) }));
}

/** What a bar is, as text. */
function barWords(run, bar) {
  const of = bar.kind === "delegation" ? `client ${bar.client}` : `owner "${bar.owner}" of client ${bar.client}`;
  const lines = [`${bar.kind} ${bar.state} of ${bar.file}, ${of} (${run.nameOf.get(bar.client)})`];
  for (const [from, gives, denies] of bar.parts) lines.push(`since entry ${from}: ${partWords(bar, gives, denies)}`);
  if (bar.recalled !== null) lines.push(`recalled by entry ${bar.recalled}`);
  if (bar.undelivered !== null) lines.push(`the recall could not be delivered (entry ${bar.undelivered})`);
  lines.push(bar.end === null ? "it stands at the end" : `ended by entry ${bar.end}${endWords(run, bar.end)}`);
  return lines.join("\n");
}

function endWords(run, entry) {
  const row = rowOf(run, entry);
  return row ? ` (${row.operation})` : "";
}

/** What a part of a bar gives, as short as it can stand in the bar. */
function partWords(bar, gives, denies) {
  if (bar.kind === "lock") return gives || "no bytes";
  if (bar.kind === "delegation") return gives === "W" ? "for writing" : "for reading";
  return `${gives}${denies ? ` denies ${denies}` : ""}`;
}

/** Where a client's lease was over by what the entries show: from which entry to which. */
function silencesOf(run, client) {
  const ends = [...client.renewals.slice(1), client.ended ?? run.first + run.count];
  return client.renewals
    .map((entry, place) => ({ since: rowOf(run, entry)?.moment, from: entry, to: ends[place] }))
    .filter((it) => it.since !== undefined && momentOf(run, it.to) > it.since + run.lease)
    .map((it) => ({ from: firstAfter(run, it.since + run.lease, it.from), to: it.to }));
}

function momentOf(run, entry) {
  return (rowOf(run, entry) ?? run.rows.at(-1))?.moment ?? 0;
}

/** The first entry behind one whose moment is later. */
function firstAfter(run, moment, entry) {
  let [low, high] = [entry - run.first, run.count];
  while (low < high) {
    const middle = (low + high) >> 1;
    run.rows[middle].moment > moment ? (high = middle) : (low = middle + 1);
  }
  return low + run.first;
}

/** The owners that sent sequence ids in the view, each with what it sent. */
function sequenceLanes(run, view, scale, mask) {
  if (view.to - view.from > Math.min(ENTRIES_WITH_IDS, scale.room / ROOM_OF_ID)) return [];
  const { filters } = view;
  const lanes = new Map();
  for (let entry = view.from; entry < view.to; entry += 1) {
    if (!mask[entry - run.first]) continue;
    for (const it of run.sequencesOf.get(entry) ?? []) {
      const name = run.nameOf.get(it.client) ?? `client ${it.client}`;
      if (!isClient(filters, name, it.client) || !hasOne(filters.owner, it.owner)) continue;
      listIn(lanes, `${name}\n${it.kind} owner "${it.owner}"`).push(it);
    }
  }
  return [...lanes].sort(([one], [other]) => (one < other ? -1 : 1));
}
