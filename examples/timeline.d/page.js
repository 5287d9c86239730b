// The page: what is chosen, what keys and clicks do, and the address, which names the match and the event: #match=2&event=3.

const at = (id) => document.getElementById(id);
let shown = [];

function tellShown() {
  at("shown").textContent = shown.length === matches.length ? "" : `${shown.length.toLocaleString("en")} of ${counted(matches.length, "match")}`;
}

// Filters and sorts anew; the chosen match stays where it still is there.
function refresh() {
  shown = chosen();
  items = rowsOf(shown);
  if (!shown.includes(state.match)) choose(shown[0] ?? null, 0);
  else draw();
  tellShown();
  bringIntoView(current());
  drawRows();
  overview(at("overview"), shown);
  if (!table.hidden) drawTable(shown);
}

function draw() {
  drawRows();
  drawDetail();
}

function choose(match, event) {
  const isOther = match !== state.match;
  Object.assign(state, {match, event, fold: null});
  draw();
  if (isOther) {
    detail.scrollTop = 0;
    overview(at("overview"), shown);
  }
  if (match) remember(`#match=${match.name}&event=${event + 1}`);
}

function remember(address) {
  try {
    history.replaceState(null, "", address);
  } catch {
    // Where the address can't be changed the page does without.
  }
}

function chooseRow(number) {
  const item = items[Math.max(0, Math.min(items.length - 1, number))];
  if (!item) return;
  if (item.match) choose(item.match, 0);
  else Object.assign(state, {fold: item.id, match: item.fold[0], event: 0});
  draw();
  bringIntoView(current());
}

function turnFold(id, isOpen) {
  if (isOpen) state.opened.add(id);
  else state.opened.delete(id);
  items = rowsOf(shown);
  drawRows();
}

function clickRow(event) {
  const row = event.target.closest(".row");
  if (!row) return;
  const number = Number(row.dataset.number);
  const {id} = items[number];
  if (id !== undefined) turnFold(id, !state.opened.has(id));
  chooseRow(number);
}

function chooseEvent(number) {
  if (state.match && number >= 0 && number < state.match.events.length) choose(state.match, number);
}

function clickDetail(event) {
  const key = event.target.closest("[data-key]");
  const chosenEvent = event.target.closest("[data-event]");
  if (key) {
    at("key").value = key.dataset.key;
    readFilters();
  } else if (chosenEvent) {
    chooseEvent(Number(chosenEvent.dataset.event));
    detail.querySelector(`button[data-event="${state.event}"]`).focus({preventScroll: true});
  }
}

function readFilters() {
  state.text = at("text").value.toLowerCase();
  state.key = at("key").value.toLowerCase();
  state.sort = at("sort").value;
  state.isGrouped = at("group").checked;
  state.fold = null;
  refresh();
}

function clearFilters() {
  at("text").value = at("key").value = "";
  document.activeElement?.blur();
  readFilters();
}

function showTable(isShown) {
  table.hidden = !isShown;
  list.hidden = detail.hidden = isShown;
  at("as-table").setAttribute("aria-pressed", isShown);
  if (isShown) drawTable(shown);
  else refresh();
}

function isDark() {
  return document.documentElement.dataset.theme ? document.documentElement.dataset.theme === "dark"
    : matchMedia("(prefers-color-scheme: dark)").matches;
}

function turnTheme() {
  document.documentElement.dataset.theme = isDark() ? "light" : "dark";
  tellTheme();
}

function tellTheme() {
  at("theme").textContent = isDark() ? "Light" : "Dark";
}

function turnHelp() {
  at("keyboard").hidden = !at("keyboard").hidden;
  at("help").setAttribute("aria-expanded", !at("keyboard").hidden);
}

// Right and left: the next and the previous event, or a fold that is opened and closed.
function stepAside(step) {
  if (state.fold !== null) turnFold(state.fold, step > 0);
  else chooseEvent(state.event + step);
}

const KEYS = {
  ArrowDown: () => chooseRow(current() + 1),
  ArrowUp: () => chooseRow(current() - 1),
  PageDown: () => chooseRow(current() + Math.max(1, Math.floor(list.clientHeight / ROW) - 1)),
  PageUp: () => chooseRow(current() - Math.max(1, Math.floor(list.clientHeight / ROW) - 1)),
  Home: () => chooseRow(0),
  End: () => chooseRow(items.length - 1),
  ArrowRight: () => stepAside(1),
  ArrowLeft: () => stepAside(-1),
  "/": () => at("text").focus(),
  k: () => at("key").focus(),
  g: () => at("group").click(),
  t: () => showTable(table.hidden),
  d: turnTheme,
  "?": turnHelp,
  Escape: clearFilters,
};

function pressed(event) {
  const isTyping = event.target.matches?.("input[type=search], select");
  if (event.ctrlKey || event.metaKey || event.altKey || (isTyping && event.key !== "Escape")) return;
  if (event.target.closest?.("pre, #table") && /^(Arrow|Page|Home|End)/.test(event.key)) return;
  const act = KEYS[event.key];
  if (!act) return;
  event.preventDefault();
  act();
}

// Opens what the address names, else the first match.
function openAddress() {
  const words = new URLSearchParams(location.hash.slice(1));
  const match = matches.find(({name}) => name === words.get("match")) ?? shown[0] ?? null;
  const event = Number(words.get("event") ?? 1) - 1;
  choose(match, match?.events[event] ? event : 0);
  bringIntoView(current());
  drawRows();
  if (words.get("view") === "table") showTable(true);
}

function later(act) {
  let waiting = 0;
  return () => {
    clearTimeout(waiting);
    waiting = setTimeout(act, 120);
  };
}

function tellPage() {
  document.title = data.title;
  addAll(at("title"), seen(data.title));
  const events = matches.reduce((sum, match) => sum + match.events.length, 0);
  at("summary").textContent = `${counted(matches.length, "match")}, ${counted(events, "event")}`
    + ` in ${counted(data.lanes.length, "lane")} of ${counted(data.shards.length, "shard")}`;
  if (data.query !== null) {
    at("query").hidden = false;
    addAll(at("query-text"), data.query.replace(/\n$/, "").split("\n").flatMap((line) => [...seen(line), "\n"]));
  }
  const values = new Set(matches.flatMap(({keys}) => keys.map((it) => it ?? "null")));
  for (const it of [...values].sort().slice(0, 500)) {
    const option = document.createElement("option");
    option.value = it;
    at("keys").append(option);
  }
}

function listen() {
  list.addEventListener("scroll", drawRows);
  list.addEventListener("click", clickRow);
  detail.addEventListener("click", clickDetail);
  document.addEventListener("keydown", pressed);
  at("text").addEventListener("input", later(readFilters));
  at("key").addEventListener("input", later(readFilters));
  at("sort").addEventListener("change", readFilters);
  at("group").addEventListener("change", readFilters);
  at("tools").addEventListener("submit", (event) => event.preventDefault());
  at("as-table").addEventListener("click", () => showTable(table.hidden));
  at("print").addEventListener("click", () => print());
  at("theme").addEventListener("click", turnTheme);
  at("help").addEventListener("click", turnHelp);
  matchMedia("(prefers-color-scheme: dark)").addEventListener("change", tellTheme);
  addEventListener("hashchange", openAddress);
  addEventListener("resize", later(refresh));
  addEventListener("beforeprint", () => drawTable(shown));
}

tellPage();
tellTheme();
listen();
shown = chosen();
items = rowsOf(shown);
openAddress();
tellShown();
overview(at("overview"), shown);
