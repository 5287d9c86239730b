// The matches of the page, and which of them are shown in which order.

const data = JSON.parse(document.getElementById("data").textContent);

const matches = data.matches.map(([name, keys, first, beyond, events]) => ({
  name,
  keys,
  key: keyText(keys),
  // Milliseconds since 1970, the nanoseconds beyond them, and those from the first event to the last.
  first,
  beyond,
  span: events[events.length - 1][2],
  events: events.map(([shard, line, since, lane, text]) => ({shard, line, since, lane, text})),
}));

// When an event was, in milliseconds since 1970.
function timeOf(match, {since}) {
  return match.first + Math.floor((match.beyond + since) / 1e6);
}

const marked = new Set(data.fields);

// What an event is told by in one line: its category, and the fields that the query names or, without a query, those that most
// events have.
const TOLD = new Set(["event.category", ...(data.fields.length ? data.fields : [
  "event.action", "event.outcome", "user.name", "process.name", "process.command_line", "file.path", "source.ip", "destination.ip",
  "message",
])]);

// Each color is used again from the eighth lane on.
function laneClass(lane) {
  return "lane-" + lane % 8;
}

const state = {text: "", key: "", sort: "first", isGrouped: false, opened: new Set(), match: null, event: 0, fold: null};

// What the lines of a match say, for the search of a text: as they stand, and with their escapes resolved.
const said = new WeakMap();

function wordsOf(match) {
  if (!said.has(match)) said.set(match, match.events.map(({text}) => (text.includes("\\") ? text + "\n" + unescaped(text) : text)
    .toLowerCase()).join("\n"));
  return said.get(match);
}

function unescaped(line) {
  return line.replace(/\\(u[0-9a-fA-F]{4}|.)/g, (escape) => {
    try {
      return JSON.parse(`"${escape}"`);
    } catch {
      return escape;
    }
  });
}

function passes(match) {
  return (!state.key || match.keys.some((it) => (it ?? "null").toLowerCase().includes(state.key)))
    && (!state.text || wordsOf(match).includes(state.text));
}

const ORDERS = {
  first: (a, b) => a.first - b.first || a.beyond - b.beyond,
  last: (a, b) => b.first - a.first || b.beyond - a.beyond,
  longest: (a, b) => b.span - a.span,
  shortest: (a, b) => a.span - b.span,
};

// The matches that pass the filters, in the order that was asked for.
function chosen() {
  return matches.filter(passes).sort(ORDERS[state.sort]);
}

// The rows of the list: the matches, or a fold for each key with its matches below it where it is open.
function rowsOf(shown) {
  if (!state.isGrouped) return shown.map((match) => ({match}));
  const folds = new Map();
  for (const match of shown) {
    const id = JSON.stringify(match.keys);
    if (!folds.has(id)) folds.set(id, {id, key: match.key, fold: []});
    folds.get(id).fold.push(match);
  }
  return [...folds.values()].flatMap((fold) =>
    [fold, ...(state.opened.has(fold.id) ? fold.fold.map((match) => ({match, isInner: true})) : [])]);
}
