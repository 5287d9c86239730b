// The chart of a match: a lane for each host or shard, the events on an axis of time, and the gaps between them in words.

const LANE = 34;
const GAPS = 26;
const AXIS = 24;
const EDGE = 22;
const LABEL = 36;

const STEPS = [1, 2, 5, 10, 20, 50, 100, 200, 500]
  .concat([1, 2, 5, 10, 15, 30].map((it) => it * 1e3))
  .concat([1, 2, 5, 10, 15, 30].map((it) => it * 60e3))
  .concat([1, 2, 3, 6, 12].map((it) => it * 3600e3))
  .concat([1, 2, 7, 14, 30, 90, 365, 3650].map((it) => it * 86400e3));

// The round times between two times, so far apart that their labels have room.
function ticks(from, to, room) {
  const step = STEPS.find((it) => (to - from) / it <= room) ?? STEPS[STEPS.length - 1];
  const found = [];
  for (let time = Math.ceil(from / step) * step; time <= to && found.length < 100; time += step) found.push(time);
  return {step, found};
}

function tickText(time, step) {
  if (step >= 86400e3) return day(time);
  return clock(time).slice(0, step < 1e3 ? 12 : step < 60e3 ? 8 : 5);
}

function axis(match, place, width, height) {
  const made = drawn("g", {class: "axis"}, drawn("line", {x1: 0, x2: width, y1: height - AXIS, y2: height - AXIS}));
  const {step, found} = ticks(match.first, match.first + match.span / 1e6, Math.max(1, (width - 2 * EDGE) / 90));
  for (const time of match.span ? found : []) {
    const x = place((time - match.first) * 1e6);
    // A label stays within the chart.
    const middle = Math.max(LABEL, Math.min(width - LABEL, x));
    made.append(drawn("line", {class: "tick", x1: x, x2: x, y1: GAPS, y2: height - AXIS + 4}),
      drawn("text", {x: middle, y: height - 6, "text-anchor": "middle"}, tickText(time, step)));
  }
  return made;
}

// The gaps between events, in words where the words have room.
function gaps(match, place) {
  const made = drawn("g", {class: "gaps"});
  match.events.slice(1).forEach((event, at) => {
    const from = place(match.events[at].since);
    const to = place(event.since);
    const words = inWords(event.since - match.events[at].since);
    if (to - from < 14) return;
    made.append(drawn("path", {d: `M${from + 3} 20V16H${to - 3}V20`}));
    if (to - from > words.length * 6 + 8) made.append(drawn("text", {x: (from + to) / 2, y: 11, "text-anchor": "middle"}, words));
  });
  return made;
}

function points(match, place, height) {
  const made = drawn("g", {class: "points"});
  match.events.forEach((event, at) => {
    const isChosen = at === state.event;
    const point = drawn("g", {class: "point " + laneClass(event.lane) + (isChosen ? " chosen" : ""), "data-event": at},
      drawn("circle", {cx: place(event.since), cy: height(event.lane), r: isChosen ? 11 : 9}),
      drawn("text", {x: place(event.since), y: height(event.lane) + 3.5, "text-anchor": "middle"}, String(at + 1)));
    made.append(point);
  });
  // The chosen one is drawn last, above those that it touches.
  made.append(made.children[state.event]);
  return made;
}

function chart(match, width) {
  const lanes = [...new Set(match.events.map(({lane}) => lane))];
  const height = GAPS + lanes.length * LANE + AXIS;
  const place = (since) => match.span ? EDGE + since / match.span * (width - 2 * EDGE) : width / 2;
  const middle = (lane) => GAPS + (lanes.indexOf(lane) + 0.5) * LANE;
  const made = drawn("svg", {class: "chart", width, height, "aria-hidden": "true"}, axis(match, place, width, height));
  for (const lane of lanes) made.append(drawn("line", {class: "lane", x1: 0, x2: width, y1: middle(lane), y2: middle(lane)}));
  const way = match.events.map(({since, lane}) => `${place(since).toFixed(1)} ${middle(lane)}`).join("L");
  made.append(drawn("path", {class: "way", d: "M" + way}), gaps(match, place), points(match, place, middle));
  const names = element("div", "lane-names", ...lanes.map((lane) => element("div", laneClass(lane), value(data.lanes[lane]))));
  return element("div", "lanes", names, made);
}

// So few matches are seen at once in the list.
const FEW = 12;

// When the matches that are shown began: a bar for each part of the log's time.
function overview(svg, shown) {
  svg.toggleAttribute("hidden", matches.length < FEW);
  const width = svg.clientWidth || 600;
  const bars = Math.max(10, Math.min(160, Math.floor(width / 7)));
  const from = matches.reduce((least, {first}) => Math.min(least, first), Infinity);
  const to = matches.reduce((most, {first}) => Math.max(most, first), -Infinity);
  const counts = new Array(bars).fill(0);
  const barOf = (time) => to > from ? Math.min(bars - 1, Math.floor((time - from) / (to - from) * bars)) : 0;
  for (const {first} of shown) counts[barOf(first)]++;
  const most = Math.max(1, ...counts);
  const here = state.match ? barOf(state.match.first) : -1;
  svg.setAttribute("aria-label", "When the matches that are shown began");
  svg.replaceChildren(drawn("line", {x1: 0, x2: width, y1: 39.5, y2: 39.5}), ...counts.flatMap((count, at) => {
    const tall = count ? 3 + count / most * 34 : 0;
    const title = drawn("title", {}, `${counted(count, "match")} from ${day(from + at / bars * (to - from))} `
      + `${clock(from + at / bars * (to - from)).slice(0, 8)} on`);
    return count ? [drawn("rect", {class: at === here ? "here" : "bar", x: at * width / bars + 1, y: 39 - tall,
      width: Math.max(2, width / bars - 2), height: tall, rx: 1}, title)] : [];
  }));
}
