// Where entries stand in the picture.

/** The width of the names on the left, and of what is free on the right. */
const GUTTER = 168;
const RIGHT = 14;
const STEPS = [1, 2, 5];

/** The scale of a view: `x` of an entry's begin, which may be past the last one. */
function scaleOf(run, view, width) {
  const isSeconds = view.by === "seconds";
  const place = (entry) => (isSeconds ? run.seconds[clamp(entry - run.first, 0, run.count)] : entry);
  const begin = place(view.from);
  const room = width - GUTTER - RIGHT;
  const factor = room / Math.max(place(view.to) - begin, 1e-9);
  const x = (entry) => GUTTER + clamp((place(entry) - begin) * factor, 0, room);
  return { x, width, room, begin, factor, middle: (entry) => (x(entry) + x(entry + 1)) / 2 };
}

function clamp(value, least, most) {
  return Math.min(Math.max(value, least), most);
}

/** The entry at a place of the picture. */
function entryAt(run, view, scale, x) {
  const wanted = scale.begin + (x - GUTTER) / scale.factor;
  if (view.by === "entries") return clamp(Math.floor(wanted), view.from, view.to - 1);
  let [low, high] = [view.from - run.first, view.to - run.first];
  while (high - low > 1) {
    const middle = (low + high) >> 1;
    run.seconds[middle] <= wanted ? (low = middle) : (high = middle);
  }
  return low + run.first;
}

/** A round step, such that about so many are in the span. */
function stepOf(span, count) {
  for (let power = 1; ; power *= 10) {
    const found = STEPS.find((step) => span / (step * power) <= count);
    if (found) return found * power;
  }
}

/** The lines of the axis: where each stands, and its words. */
function axisLines(run, view, scale) {
  return view.by === "entries" ? linesOfEntries(run, view, scale) : linesOfSeconds(run, view, scale);
}

function linesOfEntries(run, view, scale) {
  const step = stepOf(view.to - view.from, Math.max(3, scale.room / 110));
  const found = [];
  for (let entry = Math.ceil(view.from / step) * step; entry < view.to; entry += step) {
    found.push({ x: scale.x(entry), words: `${entry} · ${rowOf(run, entry).moment} s` });
  }
  return found;
}

function linesOfSeconds(run, view, scale) {
  const end = run.seconds[view.to - run.first];
  const step = stepOf(end - scale.begin, Math.max(3, scale.room / 110));
  const found = [];
  for (let moment = Math.ceil(scale.begin / step) * step; moment < end; moment += step) {
    const x = GUTTER + (moment - scale.begin) * scale.factor;
    found.push({ x, words: `${moment} s · ${entryAt(run, view, scale, x + 0.01)}` });
  }
  return found;
}

/** Two numbers of a path. */
function point(x, y) {
  return `${x.toFixed(1)} ${y.toFixed(1)}`;
}
