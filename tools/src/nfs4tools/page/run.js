// The run: its entries, and what stood when. What comes from the journal is text here, and is only written as text.

/** The kinds of refusals, each with its words. */
const KINDS = {
  order: "wrong sequence id",
  gone: "state that is gone or wrong",
  conflict: "conflict with another owner or client",
  other: "another refusal",
};

/** The kinds by the statuses; all others are of the last kind. */
const KIND_OF = {
  BAD_SEQID: "order",
  BAD_STATEID: "gone",
  OLD_STATEID: "gone",
  EXPIRED: "gone",
  STALE_CLIENTID: "gone",
  STALE_STATEID: "gone",
  SHARE_DENIED: "conflict",
  DENIED: "conflict",
  DELAY: "conflict",
  LOCKED: "conflict",
  LOCKS_HELD: "conflict",
  CLID_INUSE: "conflict",
};

const NOBODY = "no client";

/** The values that were packed into the page. */
async function unpacked(text) {
  const bytes = Uint8Array.from(atob(text), (letter) => letter.charCodeAt(0));
  const stream = new Blob([bytes]).stream().pipeThrough(new DecompressionStream("deflate"));
  return JSON.parse(await new Response(stream).text());
}

/** A status without what all of them begin with; null has none. */
function shortStatus(status) {
  return status?.replace(/^NFS4(ERR)?_/, "");
}

function isRefused(row) {
  return row.status !== null && row.status !== "NFS4_OK";
}

function kindOf(row) {
  return KIND_OF[shortStatus(row.status)] ?? "other";
}

/** The values, with what is made of them once: names, colours, and places by entries. */
function runOf(values) {
  const { fields } = values;
  const rows = objectsOf(fields.rows, values.rows);
  for (const row of rows) row.why = row.why && objectOf(fields.why, row.why);
  const run = { ...values, rows, sequences: objectsOf(fields.sequences, values.sequences) };
  run.count = rows.length;
  run.first = rows[0]?.entry ?? 0;
  run.nameOf = new Map(run.clients.map((it) => [it.number, it.name]));
  run.names = distinct([...run.clients, ...run.rows], (it) => it.name ?? it.client);
  run.numbers = new Set(distinct(run.rows, (row) => row.number).map(String));
  run.colours = new Map(run.names.map((name, place) => [name, `c${place % 8}`]));
  run.files = distinct([...run.bars, ...run.rows], (it) => it.file).sort();
  run.owners = distinct(run.rows.flatMap((row) => row.owners), (it) => it).sort();
  run.statuses = distinct(run.rows, (row) => shortStatus(row.status)).sort();
  run.seconds = secondsOf(run.rows);
  run.barOf = new Map(run.bars.map((it) => [it.state, it]));
  run.sequencesOf = grouped(run.sequences, (it) => it.entry);
  return run;
}

/** The records that stand as lists, by the names of their fields. */
function objectsOf(names, lists) {
  return lists.map((list) => objectOf(names, list));
}

function objectOf(names, list) {
  const found = {};
  for (let place = 0; place < names.length; place += 1) found[names[place]] = list[place];
  return found;
}

/** The values of a list, each once, in the order in which they come. */
function distinct(list, valueOf) {
  return [...new Set(list.map(valueOf).filter((it) => it !== null && it !== undefined))];
}

/** Lists by what they have in common. */
function grouped(list, keyOf) {
  const found = new Map();
  for (const it of list) {
    const key = keyOf(it);
    found.has(key) ? found.get(key).push(it) : found.set(key, [it]);
  }
  return found;
}

/** Where entries stand on an axis of seconds: those of one moment side by side, in their order. */
function secondsOf(rows) {
  const found = new Float64Array(rows.length + 1);
  for (let begin = 0; begin < rows.length; ) {
    let end = begin;
    while (end < rows.length && rows[end].moment === rows[begin].moment) end += 1;
    for (let at = begin; at < end; at += 1) found[at] = rows[begin].moment + (at - begin) / (end - begin);
    begin = end;
  }
  for (let at = 1; at < rows.length; at += 1) found[at] = Math.max(found[at], found[at - 1]);
  found[rows.length] = (rows.at(-1)?.moment ?? 0) + 1;
  return found;
}

/** The row of an entry, or undefined. */
function rowOf(run, entry) {
  return run.rows[entry - run.first];
}

/** The client of a row by its name. */
function nameOf(row) {
  return row.client ?? NOBODY;
}

/** A number with its noun. */
function counted(number, noun, nouns = `${noun}s`) {
  return `${number} ${number === 1 ? noun : nouns}`;
}
