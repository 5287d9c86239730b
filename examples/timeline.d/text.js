"use strict";

// Texts of the page: times and spans in words, and texts of the log as they can be seen. Whatever comes from the log gets into the
// page as the text of a node, and never as HTML.

// An element with its class and its children, which are nodes or texts.
function element(name, className, ...children) {
  const made = document.createElement(name);
  if (className) made.className = className;
  made.append(...children);
  return made;
}

// The same for children that may be many, more than a call takes.
function addAll(made, children) {
  for (const child of children) made.append(child);
  return made;
}

// The same of SVG, with attributes that the page itself chooses.
function drawn(name, attributes, ...children) {
  const made = document.createElementNS("http://www.w3.org/2000/svg", name);
  for (const [key, value] of Object.entries(attributes)) made.setAttribute(key, value);
  made.append(...children);
  return made;
}

function counted(number, unit) {
  return `${number.toLocaleString("en")} ${unit}${number === 1 ? "" : unit.endsWith("match") ? "es" : "s"}`;
}

const UNITS = [
  ["day", 86400e9], ["hour", 3600e9], ["minute", 60e9], ["second", 1e9], ["millisecond", 1e6], ["microsecond", 1e3], ["nanosecond", 1],
];

// A span of nanoseconds in words: of two units from minutes on, of one with up to three digits behind the point below.
function inWords(nanoseconds) {
  if (nanoseconds < 1) return "no time";
  const at = UNITS.findIndex(([, size]) => nanoseconds >= size);
  const [unit, size] = UNITS[at];
  if (size <= 1e9) return counted(Math.round(nanoseconds / size * 1000) / 1000, unit);
  const [below, smaller] = UNITS[at + 1];
  const parts = Math.round(nanoseconds / smaller);
  const whole = Math.floor(parts * smaller / size);
  const rest = parts - whole * size / smaller;
  return counted(whole, unit) + (rest ? " " + counted(rest, below) : "");
}

function gapInWords(nanoseconds) {
  return nanoseconds === 0 ? "at the same time" : inWords(nanoseconds) + " later";
}

// The day and the time of day in UTC, of milliseconds since 1970.
function day(time) {
  return new Date(time).toISOString().slice(0, -14);
}
function clock(time) {
  return new Date(time).toISOString().slice(-13, -1);
}

// What can't be seen or would steer how a text is laid out: controls, marks of direction, characters without a width, line ends,
// blanks other than the usual one, halves of characters, and those that no font has.
const UNSEEN = /[\p{C}\p{Zl}\p{Zp}\u115f\u1160\u3164\uffa0]|[^\S ]/u;
const UNSEEN_PARTS = /((?:[\p{C}\p{Zl}\p{Zp}\u115f\u1160\u3164\uffa0]|[^\S ])+)/u;

function escaped(text) {
  let told = "";
  for (let at = 0; at < text.length; at++) told += "\\u" + text.charCodeAt(at).toString(16).padStart(4, "0");
  return told;
}

// A text in parts, of which each second one can't be seen and is escaped.
function partsOf(text) {
  return text.split(UNSEEN_PARTS).map((part, at) => at % 2 ? escaped(part) : part);
}

// So many parts of a text get an element of their own; a browser would take long to lay out more of them.
const PARTS = 400;

// A text of the log as nodes: what can't be seen stands there as the escapes of JSON.
function seen(text) {
  if (!UNSEEN.test(text)) return [document.createTextNode(text)];
  const parts = partsOf(text);
  if (parts.length > PARTS) return [document.createTextNode(parts.join(""))];
  return parts.map((part, at) => at % 2 ? element("span", "unseen", part) : document.createTextNode(part));
}

// The same as one text.
function seenText(text) {
  return UNSEEN.test(text) ? partsOf(text).join("") : text;
}

// A text of the log in an element of its own, whose direction stays within it.
function value(text, className = "value") {
  return addAll(element("bdi", className), seen(text));
}

// What of a text is shown at first, where it is long.
const SHOWN = 2000;

function moreButton(text, act) {
  const more = element("button", "more", text);
  more.type = "button";
  more.addEventListener("click", () => {
    more.remove();
    act();
  });
  return more;
}

function foldable(text, className) {
  if (text.length <= 2 * SHOWN) return value(text, className);
  const made = value(text.slice(0, SHOWN), className);
  made.append(moreButton(`… all ${counted(text.length, "character")}`, () => addAll(made, seen(text.slice(SHOWN)))));
  return made;
}

function keyText(keys) {
  return keys.map((it) => it === null ? "null" : it).join(" · ");
}
