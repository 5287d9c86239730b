// The list of matches. Its rows have one height, and only those that can be seen are made.

const ROW = 58;
const list = document.getElementById("list");
const rowRoom = document.getElementById("rows");
let items = [];

// The events of a match as points on a strip, from the first to the last.
function strip(match) {
  const width = 104;
  const made = drawn("svg", {class: "strip", width, height: 16, "aria-hidden": "true"},
    drawn("line", {x1: 4, x2: width - 4, y1: 8, y2: 8}));
  for (const {since, lane} of match.events) {
    const x = match.span ? 5 + since / match.span * (width - 10) : width / 2;
    made.append(drawn("circle", {cx: x.toFixed(1), cy: 8, r: 3.5, class: laneClass(lane)}));
  }
  return made;
}

// Whether all matches begin on one day, so that it needn't stand in each row.
let oneDay;
function isOneDay() {
  oneDay ??= new Set(matches.map(({first}) => Math.floor(first / 86400e3))).size === 1;
  return oneDay;
}

function matchRow(match, isInner) {
  const time = (isOneDay() ? "" : day(match.first) + " ") + clock(match.first).slice(0, 8);
  return element("div", "row" + (isInner ? " inner" : ""),
    element("span", "number", match.name),
    element("span", "what", value(match.key || "no key", match.key ? "key" : "key none"),
      element("span", "when", time, element("span", "dot", "·"), inWordsOr(match.span))),
    strip(match));
}

function inWordsOr(span) {
  return span ? inWords(span) : "at one time";
}

function foldRow(item) {
  const longest = item.fold.reduce((most, {span}) => Math.max(most, span), 0);
  return element("div", "row fold",
    element("span", "number", state.opened.has(item.id) ? "▾" : "▸"),
    element("span", "what", value(item.key || "no key", "key"),
      element("span", "when", counted(item.fold.length, "match"), element("span", "dot", "·"),
        `longest ${inWordsOr(longest)}`)));
}

function rowAt(number, isChosen) {
  const item = items[number];
  const made = item.match ? matchRow(item.match, item.isInner) : foldRow(item);
  made.id = "row-" + number;
  made.dataset.number = number;
  made.setAttribute("role", "option");
  made.setAttribute("aria-setsize", items.length);
  made.setAttribute("aria-posinset", number + 1);
  made.setAttribute("aria-selected", isChosen);
  made.style.top = number * ROW + "px";
  return made;
}

// The row that is chosen, or -1: that of the match, or of the fold.
function current() {
  return items.findIndex((it) => it.match ? it.match === state.match && state.fold === null : it.id === state.fold);
}

function drawRows() {
  const from = Math.max(0, Math.floor(list.scrollTop / ROW) - 4);
  const to = Math.min(items.length, Math.ceil((list.scrollTop + list.clientHeight) / ROW) + 4);
  const chosenRow = current();
  const made = [];
  for (let number = from; number < to; number++) made.push(rowAt(number, number === chosenRow));
  rowRoom.replaceChildren(...made);
  rowRoom.style.height = items.length * ROW + "px";
  if (chosenRow >= from && chosenRow < to) list.setAttribute("aria-activedescendant", "row-" + chosenRow);
  else list.removeAttribute("aria-activedescendant");
}

function bringIntoView(number) {
  if (number < 0) return;
  const top = number * ROW;
  if (top < list.scrollTop) list.scrollTop = top;
  else if (top + ROW > list.scrollTop + list.clientHeight) list.scrollTop = top + ROW - list.clientHeight;
}
