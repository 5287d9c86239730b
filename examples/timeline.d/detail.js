// What is shown of the chosen match: its key, its chart, its events in words, and the line of the chosen event as JSON.

// The widths that the style gives to the edges and to the names of lanes.
const PADDING = 40;
const LANE_NAMES = 132;

const detail = document.getElementById("detail");

function heading(match) {
  const lanes = new Set(match.events.map(({lane}) => lane)).size;
  const last = timeOf(match, match.events[match.events.length - 1]);
  const keys = match.keys.map((it) => {
    const made = element("button", "chip", value(it ?? "null"));
    made.type = "button";
    made.title = "Show the matches of this value alone";
    made.dataset.key = it ?? "null";
    return made;
  });
  return element("header", "",
    element("h2", "", `Match ${match.name}`, ...keys),
    element("p", "", `${counted(match.events.length, "event")} in ${counted(lanes, "lane")}`,
      match.span ? `, over ${inWords(match.span)}` : "",
      element("span", "when", match.span ? `${day(match.first)} ${clock(match.first)} to `
        + `${day(last) === day(match.first) ? "" : day(last) + " "}${clock(last)} UTC` : `${day(match.first)} ${clock(match.first)} UTC`)));
}

// An event in one line: the values of the fields by which it is told.
function toldOf(event) {
  const found = leaves(event.text, TOLD);
  const made = element("span", "told", element("strong", "", value((found.get("event.category") ?? []).join(", "))));
  found.delete("event.category");
  for (const [field, values] of found) {
    const text = value(values.join(", ").slice(0, 200));
    text.title = field;
    made.append(element("span", "dot", "·"), text);
  }
  return made;
}

function eventRow(match, at) {
  const event = match.events[at];
  const gap = at ? gapInWords(event.since - match.events[at - 1].since) : "first";
  const made = element("button", "event " + laneClass(event.lane),
    element("span", "badge", String(at + 1)),
    element("span", "time", clock(timeOf(match, event))),
    element("span", "gap", gap),
    element("span", "lane-name", value(data.lanes[event.lane])),
    toldOf(event));
  made.type = "button";
  made.dataset.event = at;
  made.setAttribute("aria-pressed", at === state.event);
  return element("li", "", made);
}

function lineOf(event, at) {
  const copy = element("button", "plain", "Copy line");
  copy.type = "button";
  copy.addEventListener("click", () => navigator.clipboard?.writeText(event.text).then(() => copy.replaceChildren("Copied")));
  const text = jsonOf(event.text);
  text.id = "json";
  text.tabIndex = 0;
  return element("section", "line",
    element("h3", "", `Event ${at + 1}`, element("span", "place", "line ", event.line.toLocaleString("en"), " of ",
      value(data.shards[event.shard])), copy), text);
}

function drawDetail() {
  const match = state.match;
  if (!match) {
    detail.replaceChildren(element("p", "empty", matches.length ? "No match passes these filters." : "The listing has no match."));
    return;
  }
  const events = element("ol", "events", ...match.events.map((_, at) => eventRow(match, at)));
  detail.replaceChildren(heading(match), chart(match, Math.max(260, detail.clientWidth - PADDING - LANE_NAMES)), events,
    lineOf(match.events[state.event], state.event));
}
