// The picture: an SVG for the axis, and for each client, for each file, and for the sequence ids. Shapes of one look are
// one path.

const SVG = "http://www.w3.org/2000/svg";
const HISTOGRAM = 22;
const TICK_ROW = 9;
const LOOKS = { ok: "ok", order: "order", conflict: "conflict", gone: "fill-gone", other: "fill-other" };

/** The forms of the ticks, each about a middle. */
const FORMS = {
  order: (x, y) => `M${point(x - 3.5, y + 3)}h7l-3.5 -6.5z`,
  gone: (x, y) => `M${point(x - 2.7, y - 2.7)}l5.4 5.4m0 -5.4l-5.4 5.4`,
  conflict: (x, y) => `M${point(x - 2.7, y - 2.7)}h5.4v5.4h-5.4z`,
  other: (x, y) => `M${point(x - 2.6, y)}a2.6 2.6 0 1 0 5.2 0a2.6 2.6 0 1 0 -5.2 0`,
};

function element(name, attributes, ...inside) {
  const found = document.createElementNS(SVG, name);
  for (const [key, value] of Object.entries(attributes)) found.setAttribute(key, value);
  found.append(...inside);
  return found;
}

/** A part of the picture that is being drawn. `hits` says what is where, for the pointer. */
class Sheet {
  constructor(scale, words) {
    Object.assign(this, { scale, words, y: 0, paths: new Map(), over: new Map(), texts: [], hits: [] });
  }

  path(look, shape, paths = this.paths) {
    listIn(paths, look).push(shape);
  }

  box(look, x, y, width, height, paths = this.paths) {
    this.path(look, `M${point(x, y)}h${width.toFixed(1)}v${height}h${(-width).toFixed(1)}z`, paths);
  }

  text(x, y, look, words, room = Infinity) {
    const most = Math.floor(room / (/hue|bold/.test(look) ? 6.8 : 5.6));
    const shown = words.length <= most ? words : most > 3 ? `${words.slice(0, most - 1)}…` : "";
    if (shown) this.texts.push([x, y, look, shown]);
  }

  hit(x, y, width, height, entry, words) {
    this.hits.push({ x, y, right: x + width, bottom: y + height, entry, words });
  }

  /** The SVG, with the line of the chosen entry and those of the axis. */
  svg(lines, cursor) {
    const { width } = this.scale;
    const ways = lines.map((line) => `M${point(line.x, 0)}v${this.y}`).join("");
    const size = { width, height: this.y, viewBox: `0 0 ${width} ${this.y}` };
    const found = element("svg", { ...size, role: "img", "aria-label": this.words });
    found.append(element("path", { class: "grid", d: ways || "M0 0" }));
    for (const paths of [this.paths, this.over]) {
      for (const [look, ways] of paths) found.append(element("path", { class: look, d: ways.join("") }));
    }
    if (cursor !== null) found.append(element("path", { class: "cursor", d: `M${point(cursor, 0)}v${this.y}` }));
    for (const [x, y, look, words] of this.texts) {
      found.append(element("text", { x: x.toFixed(1), y, class: look }, words));
    }
    found.hits = this.hits;
    return found;
  }
}

/** The stripes of delegations that are recalled. */
function patterns() {
  const square = element("rect", { class: "stripeback", width: 5, height: 5 });
  const stripe = element("path", { class: "stripe", d: "M0 0v5" });
  const made = { id: "stripes", width: 5, height: 5, patternUnits: "userSpaceOnUse", patternTransform: "rotate(45)" };
  const defined = element("defs", {}, element("pattern", made, square, stripe));
  return element("svg", { width: 0, height: 0, "aria-hidden": true }, defined);
}

function axisSheet(lines, scale) {
  const sheet = new Sheet(scale, "the axis");
  for (const line of lines) sheet.text(line.x + 2, 12, "faint", line.words);
  sheet.y = 17;
  return sheet;
}

/** A client: how much it sent, its refusals, and its lease over all its numbers. */
function clientSheet(run, view, scale, found, named, name) {
  const mine = run.clients.filter((it) => it.name === name);
  const refusals = found.of.get(name) ?? [];
  const sheet = new Sheet(scale, `client ${name}: ${counted(refusals.length, "refusal")}`);
  sheet.text(6, 14, `hue ${run.colours.get(name) ?? "c7"}`, name, GUTTER - 10);
  if (mine.length) sheet.text(6, 27, "faint small", numbersWords(mine), GUTTER - 10);
  drawCounts(sheet, found.counts.get(name) ?? {});
  sheet.y = HISTOGRAM + 4;
  drawTicks(run, view, sheet, refusals, named);
  for (const client of mine) drawLease(run, view, sheet, client, named);
  sheet.y = Math.max(sheet.y + 10, 34);
  return sheet;
}

/** The numbers of a client, of which the first and the last are named if there are many. */
function numbersWords(clients) {
  const numbers = clients.map((it) => it.number);
  if (numbers.length === 1) return `client ${numbers[0]}`;
  if (numbers.length <= 3) return `clients ${numbers.join(", ")}`;
  return `${numbers.length} clients, ${numbers[0]} to ${numbers.at(-1)}`;
}

/** The calls in each bin, those that were refused above the others. */
function drawCounts(sheet, counts) {
  const lists = Object.keys(LOOKS).filter((kind) => counts[kind]).map((kind) => [LOOKS[kind], counts[kind]]);
  const sums = Array.from(lists[0]?.[1] ?? [], (_, bin) => lists.reduce((sum, [, list]) => sum + list[bin], 0));
  const top = sums.reduce((most, sum) => Math.max(most, sum), 4);
  sums.forEach((_, bin) => {
    let y = HISTOGRAM + 2;
    for (const [look, list] of lists) {
      const height = (list[bin] / top) * HISTOGRAM;
      y -= height;
      if (height) sheet.box(`bin ${look}`, GUTTER + bin * BIN, y, BIN - 0.6, height.toFixed(1));
    }
  });
}

/** The refusals as ticks: kinds that would hide each other have rows of their own. */
function drawTicks(run, view, sheet, entries, named) {
  const lists = ticksOf(run, sheet.scale, entries);
  for (const { kind, marks, row } of lists) {
    for (const mark of marks) drawTick(run, view, sheet, kind, mark, sheet.y + TICK_ROW * (row + 0.5), named);
  }
  sheet.y += TICK_ROW * lists.reduce((most, list) => Math.max(most, list.row + 1), 0);
}

function drawTick(run, view, sheet, kind, { x, entries }, y, named) {
  sheet.path(kind, FORMS[kind](x, y));
  const isChosen = entries.includes(view.chosen);
  const isNamed = entries.some((entry) => named.entries.has(entry));
  if (isChosen || isNamed) sheet.box(isChosen ? "halo" : "bold-bar", x - 5, y - 5, 10, 10, sheet.over);
  sheet.hit(x - 4, y - 5, 8, 10, isChosen ? view.chosen : entries[0], tickWords(run, entries));
}

function tickWords(run, entries) {
  const row = rowOf(run, entries[0]);
  const words = `${row.entry}: ${row.operation} ${row.status}\n${row.why?.text ?? ""}`;
  if (entries.length === 1) return words;
  return `${entries.length} refusals, entries ${entries[0]} to ${entries.at(-1)}; the first:\n${words}`;
}

/** A client's lease: as a bar as long as the entries renewed it in time. */
function drawLease(run, view, sheet, client, named) {
  const { scale } = sheet;
  const end = client.ended ?? run.first + run.count;
  if (end < view.from || client.given >= view.to) return;
  const colour = run.colours.get(client.name);
  const begin = client.confirmed ?? end;
  const y = sheet.y + 3;
  const line = (from, to) =>
    sheet.path(`silent ${colour}`, `M${point(scale.x(from), y + 2)}H${scale.x(to).toFixed(1)}`);
  if (client.given < begin) line(client.given, begin);
  let at = begin;
  for (const { from, to } of [...silencesOf(run, client), { from: end, to: end }]) {
    if (from > at) sheet.box(`hue lease ${colour}`, scale.x(at), y, scale.x(from) - scale.x(at), 5);
    if (to > from) line(from, to);
    at = to;
  }
  drawRenewals(view, sheet, client, y);
  drawEnds(view, sheet, client, y, named);
  const left = scale.x(client.given);
  sheet.hit(left, y - 3, Math.max(4, scale.x(end) - left), 10, client.given, clientWords(client));
}

/** The renewals, as far as they can be told apart. */
function drawRenewals(view, sheet, client, y) {
  let last = -Infinity;
  for (const entry of client.renewals) {
    if (entry < view.from || entry >= view.to) continue;
    const x = sheet.scale.middle(entry);
    const isNear = x - last < 6;
    last = x;
    if (isNear) continue;
    sheet.path("renewal", `M${point(x, y)}v5`, sheet.over);
    sheet.hit(x - 3, y - 3, 6, 10, entry, `entry ${entry} renews the lease of client ${client.number}`);
  }
}

/** Where the client is confirmed, and where it ends. */
function drawEnds(view, sheet, client, y, named) {
  const { scale } = sheet;
  if (client.confirmed !== null && client.confirmed >= view.from && client.confirmed < view.to) {
    sheet.path("begun", `M${point(scale.middle(client.confirmed), y - 3)}l5 5.5l-5 5.5z`, sheet.over);
  }
  if (client.ended === null || client.ended < view.from || client.ended >= view.to) return;
  const x = scale.middle(client.ended);
  sheet.path("ended", `M${point(x - 4, y - 1.5)}l8 8m0 -8l-8 8`, sheet.over);
  if (named.entries.has(client.ended)) sheet.box("bold-bar", x - 7, y - 4.5, 14, 14, sheet.over);
  sheet.hit(x - 6, y - 4, 12, 12, client.ended, `entry ${client.ended} ends client ${client.number}: ${client.why}`);
}

function clientWords(client) {
  const lines = [`client ${client.number}, "${client.name}", given by entry ${client.given}`];
  lines.push(client.confirmed === null ? "never confirmed" : `confirmed by entry ${client.confirmed}`);
  if (client.ended !== null) lines.push(`ended by entry ${client.ended}: ${client.why}`);
  return lines.join("\n");
}

/** A file: for each client its opens, locks and delegations, and its refusals. */
function fileSheet(run, view, scale, found, named, file, bars) {
  const sheet = new Sheet(scale, `file ${file}: ${counted(bars.length, "bar")}`);
  sheet.box("band", 0, 0, scale.width, 16);
  sheet.text(6, 12, "bold", file, scale.width - 12);
  sheet.y = 18;
  const byName = grouped(bars, (bar) => run.nameOf.get(bar.client));
  for (const name of [...run.names, NOBODY]) {
    const mine = byName.get(name) ?? [];
    const refusals = found.refusals.get(`${file}\n${name}`) ?? [];
    if (mine.length + refusals.length === 0) continue;
    const begin = sheet.y;
    sheet.text(16, begin + 10, `hue ${run.colours.get(name) ?? "c7"}`, name, GUTTER - 20);
    drawBars(run, view, sheet, mine, named);
    drawTicks(run, view, sheet, refusals, named);
    sheet.y = Math.max(sheet.y, begin + 13) + 3;
  }
  return sheet;
}

function drawBars(run, view, sheet, bars, named) {
  const placed = rowsOf(bars);
  const rows = placed.reduce((most, it) => Math.max(most, it.row + 1), 0);
  const height = rows > ROWS ? 4 : 10;
  const begin = sheet.y;
  for (const { bar, row } of placed) drawBar(run, view, sheet, bar, begin + row * (height + 1), height, named);
  sheet.y = begin + rows * (height + 1);
}

function drawBar(run, view, sheet, bar, y, height, named) {
  const { scale } = sheet;
  const left = scale.x(Math.max(bar.begin, view.from));
  const width = Math.max(1.5, scale.x(Math.min(bar.end ?? Infinity, view.to)) - left);
  for (const part of partsOf(run, view, bar)) {
    const x = scale.x(part.from);
    const room = Math.max(1.5, scale.x(part.to) - x);
    drawPart(run, sheet, bar, part, x, y, room, height);
    const look = bar.kind === "lock" && part.gives ? "onlock" : "onbar";
    const isBold = named.states.has(bar.state) ? " bold" : "";
    const isNamed = bar.kind !== "lock" || part.gives;
    if (isNamed && height > 8 && room > 44) sheet.text(x + 3, y + 8.5, look + isBold, labelOf(bar, part), room - 4);
  }
  if (named.states.has(bar.state)) sheet.box("bold-bar", left, y, width, height, sheet.over);
  sheet.hit(left, y, Math.max(3, width), height, bar.begin, barWords(run, bar));
}

/** What stands in a bar. */
function labelOf(bar, part) {
  return bar.kind === "delegation" ? `deleg. ${part.gives}` : `${bar.owner} ${partWords(bar, part.gives, part.denies)}`;
}

/** A part of a bar, by what it is. */
function drawPart(run, sheet, bar, part, x, y, room, height) {
  if (bar.kind === "lock") return sheet.box(part.gives ? "lock" : "unlocked", x, y + 1, room, height - 2);
  if (bar.kind === "open") {
    const access = part.gives.length === 2 ? 3 : part.gives === "W" ? 2 : 1;
    sheet.box(`hue access${access} ${run.colours.get(run.nameOf.get(bar.client))}`, x, y, room, height);
    if (part.denies) sheet.box("deny", x + 0.7, y + 0.7, Math.max(0.5, room - 1.4), height - 1.4, sheet.over);
    return undefined;
  }
  const recalled = clamp(bar.recalled === null ? x + room : sheet.scale.x(bar.recalled), x, x + room);
  if (recalled > x) sheet.box("delegation", x, y, recalled - x, height);
  if (recalled < x + room) sheet.box("recalled", recalled, y, x + room - recalled, height);
  return undefined;
}

/** The sequence ids of owners: above what was wanted, below what was sent. */
function sequenceSheet(view, scale, lanes) {
  const sheet = new Sheet(scale, "sequence ids");
  sheet.box("band", 0, 0, scale.width, 16);
  sheet.text(6, 12, "bold", "sequence ids: wanted above, sent below", scale.width - 12);
  sheet.y = 18;
  for (const [key, list] of lanes) {
    const [name, owner] = key.split("\n");
    sheet.text(6, sheet.y + 10, "bold small", name, GUTTER - 10);
    sheet.text(6, sheet.y + 22, "faint small", owner, GUTTER - 10);
    for (const it of list) drawSequence(sheet, it, sheet.y);
    sheet.y += 30;
  }
  return sheet;
}

function drawSequence(sheet, it, y) {
  const x = sheet.scale.x(it.entry) + 1;
  const room = Math.max(16, sheet.scale.x(it.entry + 1) - x);
  const isWrong = it.outcome === "wrong";
  sheet.text(x, y + 10, "faint small", it.due === null ? "any" : shortNumber(it.due));
  const again = it.outcome === "replay" ? " ↺" : "";
  sheet.text(x, y + 22, isWrong ? "small bold" : "small", shortNumber(it.sent) + again);
  if (isWrong) sheet.path("order", FORMS.order(x + 4, y + 27));
  if (it.outcome === "not counted") sheet.path("other", FORMS.other(x + 4, y + 26.5));
  const due = it.due === null ? "any" : it.due;
  const owner = `entry ${it.entry}: ${it.kind} owner "${it.owner}" of client ${it.client}`;
  sheet.hit(x - 1, y, room, 30, it.entry, `${owner}\nwanted ${due}, sent ${it.sent}: ${it.outcome}`);
}

/** The end of a number that is long. */
function shortNumber(number) {
  const digits = String(number);
  return digits.length <= 4 ? digits : `…${digits.slice(-3)}`;
}
