// A line of the log as JSON, by its own text: names that stand twice, long numbers and their digits are kept as they are, which
// JSON.parse wouldn't do.

const SPACE = /[ \t\r\n]*/y;
const WORD = /[^\s{}[\],:"]+/y;

class Walk {
  // `visit` gets each piece: "open", "close", "comma", "name" and "leaf", with its text, its depth, and the dotted name that it has.
  constructor(line, visit) {
    this.line = line;
    this.at = 0;
    this.visit = visit;
  }

  passSpace() {
    SPACE.lastIndex = this.at;
    SPACE.test(this.line);
    this.at = SPACE.lastIndex;
  }

  takes(character) {
    this.passSpace();
    if (this.line[this.at] !== character) return false;
    this.at++;
    return true;
  }

  wants(character) {
    if (!this.takes(character)) throw new SyntaxError("no JSON");
  }

  string() {
    this.wants('"');
    const from = this.at - 1;
    for (; this.at < this.line.length; this.at++) {
      const code = this.line.charCodeAt(this.at);
      if (code === 92) this.at++;
      else if (code === 34) return this.line.slice(from, ++this.at);
    }
    throw new SyntaxError("no JSON");
  }

  leaf(depth, path) {
    this.passSpace();
    let text;
    if (this.line[this.at] === '"') {
      text = this.string();
    } else {
      WORD.lastIndex = this.at;
      text = WORD.exec(this.line)?.[0];
      if (!text) throw new SyntaxError("no JSON");
      this.at = WORD.lastIndex;
    }
    JSON.parse(text);
    this.visit("leaf", text, depth, path);
  }

  // The members of an object or an array, up to its end.
  members(end, depth, member) {
    if (this.takes(end)) return;
    do {
      member();
      this.passSpace();
      if (this.line[this.at] === ",") this.visit("comma", ",", depth);
    } while (this.takes(","));
    this.wants(end);
  }

  member(depth, path) {
    this.passSpace();
    const text = this.string();
    const name = JSON.parse(text);
    const full = path === null ? name : path + "." + name;
    this.visit("name", text, depth, full);
    this.wants(":");
    this.value(depth, full);
  }

  value(depth, path) {
    if (this.takes("{")) {
      this.visit("open", "{", depth);
      this.members("}", depth + 1, () => this.member(depth + 1, path));
      this.visit("close", "}", depth);
    } else if (this.takes("[")) {
      this.visit("open", "[", depth);
      this.members("]", depth + 1, () => {
        this.visit("item", "", depth + 1);
        this.value(depth + 1, path);
      });
      this.visit("close", "]", depth);
    } else {
      this.leaf(depth, path);
    }
  }

  all() {
    this.value(0, null);
    this.passSpace();
    if (this.at !== this.line.length) throw new SyntaxError("no JSON");
  }
}

// The texts of the values of some fields, by their dotted names.
function leaves(line, fields) {
  const found = new Map();
  try {
    new Walk(line, (piece, text, depth, path) => {
      if (piece !== "leaf" || !fields.has(path)) return;
      const read = JSON.parse(text);
      found.set(path, [...(found.get(path) ?? []), typeof read === "string" ? read : text]);
    }).all();
  } catch {
    // A line that this page can't take apart is shown as it stands.
  }
  return found;
}

// The line as indented JSON, in pieces of a text and its class: with the marked fields, and as it stands where it can't be taken
// apart. Blanks and line ends have no class.
function indented(line, marked) {
  const pieces = [];
  let isOpen = false;
  const begin = (depth) => pieces.push(["\n" + "  ".repeat(depth), ""]);
  const visit = (piece, text, depth, path) => {
    if (piece === "name" || piece === "item" || (piece === "close" && !isOpen)) begin(depth);
    if (piece === "name" || piece === "leaf") {
      const kind = piece === "name" ? "name" : text[0] === '"' ? "string" : "literal";
      pieces.push([text, kind + (marked.has(path) ? " marked" : "")]);
      if (piece === "name") pieces.push([": ", "sign"]);
    } else if (piece !== "item") {
      pieces.push([text, "sign"]);
    }
    isOpen = piece === "open";
  };
  try {
    new Walk(line, visit).all();
    return pieces;
  } catch {
    return [[line, "raw"]];
  }
}

function pieceNode([text, className]) {
  return className ? foldable(text, className) : text;
}

// So many pieces of a line are shown at first. The rest is one text, without colors.
const PIECES = 5000;

function jsonOf(line) {
  const pieces = indented(line, marked);
  const made = addAll(element("pre", "json"), pieces.slice(0, PIECES).map(pieceNode));
  const rest = () => made.append(pieces.slice(PIECES).map(([text, className]) => className ? seenText(text) : text).join(""));
  if (pieces.length > PIECES) made.append(moreButton("… the rest of the line", rest));
  return made;
}
