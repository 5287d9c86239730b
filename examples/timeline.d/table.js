// The matches that are shown as one table, to read and to print.

const table = document.getElementById("table");

function eventCell(match) {
  return match.events.map((event, at) => element("div", "",
    element("span", "time", clock(timeOf(match, event))), " ", value(data.lanes[event.lane]),
    element("span", "place", ` ${event.shard}:${event.line}`), at ? `, ${gapInWords(event.since - match.events[at - 1].since)}` : ""));
}

function tableRow(match) {
  return element("tr", "", element("td", "number", match.name), element("td", "", value(match.key)),
    element("td", "time", `${day(match.first)} ${clock(match.first)}`), element("td", "", inWordsOr(match.span)),
    element("td", "", ...eventCell(match)));
}

function drawTable(shown) {
  const head = ["Match", "Key", "First event, UTC", "Span", "Events"].map((it) => element("th", "", it));
  table.replaceChildren(element("table", "", element("thead", "", element("tr", "", ...head)),
    addAll(element("tbody"), shown.map(tableRow))));
}
