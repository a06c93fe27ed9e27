// What the page does. `unlist` accepted the listing before the page was made, so each line is taken to be good here.
(() => {
"use strict";
const byId = (id) => document.getElementById(id);
const hex = (number, digits) => number.toString(16).toUpperCase().padStart(digits, "0");
const ROWS_IN_BLOCK = 16;
const LINES_IN_BLOCK = 64;
const LINES_IN_PAGE = 20;
// Of a longer line the rest is made when it is asked for.
const LINKS_AT_ONCE = 256;

const text = byId("text").textContent;
const image = bytesOf(byId("image").textContent);
const length = image.length;
const lines = linesOf();
// For each position: how many instructions cover it, whether a D line lists it, whether it has a target mark, the I line that begins there
// and the D line that lists it, -1 for none.
const covers = new Uint8Array(length);
const named = new Uint8Array(length);
const instructionAt = new Int32Array(length).fill(-1);
const dataAt = new Int32Array(length).fill(-1);
const map = byId("map");
const listing = byId("listing");
const narrow = matchMedia("(max-width: 30rem)");
let columns = 16;
let mapBlocks = null;
let listingBlocks = null;
let printing = false;
// What is shown: a byte, the stretch of bytes marked with it, and the lines; and the line that Tab comes to.
let place = 0;
let stretch = [0, 0];
let shownLines = [];
let line = 0;

function bytesOf(digits) {
  const joined = digits.replace(/\s+/g, "");
  const bytes = new Uint8Array(joined.length / 2);
  for (let i = 0; i < bytes.length; i++) {
    bytes[i] = parseInt(joined.slice(2 * i, 2 * i + 2), 16);
  }
  return bytes;
}

// Of each line where it begins and ends in the text, its letter, its position, and how many bytes it lists.
function linesOf() {
  const found = [];
  for (let at = 0; at < text.length;) {
    const stop = text.indexOf("\n", at);
    const end = stop < 0 ? text.length : stop;
    const letter = text[at];
    let size = 0;
    if (letter === "I" || letter === "D") {
      const tab = text.indexOf("\t", at + 7);
      size = ((tab < 0 || tab > end ? end : tab) - at - 7) / 2;
    }
    found.push({ at, end, letter, position: parseInt(text.slice(at + 2, at + 6), 16), size });
    at = end + 1;
  }
  return found;
}

function fieldsOf(index) {
  return text.slice(lines[index].at, lines[index].end).split("\t");
}

function readLines() {
  lines.forEach(({ letter, position, size }, index) => {
    if (letter === "L" && position < length) {
      named[position] = 1;
    }
    if (letter === "I") {
      instructionAt[position] = index;
    }
    for (let p = position; p < position + size; p++) {
      if (letter === "I") {
        covers[p]++;
      } else {
        dataAt[p] = index;
      }
    }
  });
}

function kindOf(p) {
  if (covers[p] > 0) {
    return covers[p] > 1 ? "code both" : "code";
  }
  return dataAt[p] < 0 ? "zero" : "data";
}

function wordsOf(p) {
  const words = { "code both": "code under more than one instruction", code: "code", data: "data", zero: "a zero left out" };
  return words[kindOf(p)] + (named[p] ? ", a target" : "");
}

function count() {
  const counts = { length, code: 0, both: 0, data: 0, zero: 0, named: 0 };
  for (let p = 0; p < length; p++) {
    counts[covers[p] > 0 ? "code" : "data"]++;
    counts.both += covers[p] > 1 ? 1 : 0;
    counts.zero += covers[p] === 0 && dataAt[p] < 0 ? 1 : 0;
    counts.named += named[p];
  }
  for (const [name, value] of Object.entries(counts)) {
    byId("count-" + name).textContent = value;
  }
}

// The lines that show a byte: those of the instructions that cover it, one that begins there first, or its D line, or none.
function linesAt(p) {
  const found = [];
  for (let q = p; q >= 0 && q > p - 3; q--) {
    const index = instructionAt[q];
    if (index >= 0 && q + lines[index].size > p) {
      found.push(index);
    }
  }
  return found.length || dataAt[p] < 0 ? found : [dataAt[p]];
}

// Rows in blocks, each made when it comes near the part in view, or a row of it is asked for.
class Blocks {
  constructor(holder, rows, rowsInBlock, makeRow) {
    Object.assign(this, { rows, rowsInBlock, makeRow });
    this.watcher = new IntersectionObserver((seen) => {
      seen.filter((one) => one.isIntersecting).forEach((one) => this.make(one.target));
    }, { root: holder, rootMargin: "600px 0px" });
    this.blocks = Array.from({ length: Math.ceil(rows / rowsInBlock) }, (_, number) => {
      const block = document.createElement("div");
      block.className = "block";
      block.setAttribute("role", "rowgroup");
      block.style.setProperty("--rows", Math.min(rowsInBlock, rows - number * rowsInBlock));
      block.dataset.from = number * rowsInBlock;
      return block;
    });
    const all = document.createDocumentFragment();
    this.blocks.forEach((block) => all.append(block));
    holder.replaceChildren(all);
    this.blocks.forEach((block) => this.watcher.observe(block));
  }

  make(block) {
    if (block.classList.contains("made")) {
      return;
    }
    this.watcher.unobserve(block);
    const from = Number(block.dataset.from);
    const made = document.createDocumentFragment();
    for (let row = from; row < Math.min(from + this.rowsInBlock, this.rows); row++) {
      made.append(this.makeRow(row));
    }
    block.append(made);
    block.classList.add("made");
  }

  makeAll() {
    this.blocks.forEach((block) => this.make(block));
  }

  rowAt(row) {
    this.make(this.blocks[Math.floor(row / this.rowsInBlock)]);
    return this.rowMade(row);
  }

  // The row, if its block is made.
  rowMade(row) {
    return this.blocks[Math.floor(row / this.rowsInBlock)].children[row % this.rowsInBlock];
  }

  end() {
    this.watcher.disconnect();
  }
}

function makeCell(p) {
  const cell = document.createElement("span");
  cell.className = "byte " + kindOf(p) + (named[p] ? " named" : "") + (p >= stretch[0] && p < stretch[1] ? " shown" : "");
  cell.setAttribute("role", "gridcell");
  cell.setAttribute("aria-label", hex(p, 4) + ": " + hex(image[p], 2) + ", " + wordsOf(p));
  cell.tabIndex = p === place ? 0 : -1;
  cell.dataset.position = p;
  cell.textContent = kindOf(p) === "zero" ? "·" : hex(image[p], 2);
  return cell;
}

function makeMapRow(row) {
  const made = document.createElement("div");
  const head = document.createElement("span");
  made.className = "row";
  made.setAttribute("role", "row");
  made.setAttribute("aria-rowindex", row + 1);
  head.className = "at";
  head.setAttribute("role", "rowheader");
  head.textContent = hex(row * columns, 4);
  made.append(head);
  for (let p = row * columns; p < Math.min((row + 1) * columns, length); p++) {
    made.append(makeCell(p));
  }
  return made;
}

// A field of a line, as a link if it is a position inside the image that can be gone to.
function makeField(field, linked) {
  const cell = document.createElement("span");
  cell.setAttribute("role", "gridcell");
  if (linked && /^[0-9A-F]{4}$/.test(field) && parseInt(field, 16) < length) {
    const link = document.createElement("a");
    link.href = "#" + field;
    link.tabIndex = -1;
    link.textContent = field;
    cell.append(link);
  } else {
    cell.textContent = field;
  }
  return cell;
}

function addFields(made, fields, from, to) {
  const isInstruction = fields[0] === "I";
  for (let i = from; i < Math.min(to, fields.length); i++) {
    if (i > 0) {
      made.append("\t");
    }
    made.append(makeField(fields[i], fields[0] !== "D" && i >= (isInstruction ? 4 : 1)));
  }
}

function makeLine(index) {
  const made = document.createElement("div");
  const fields = fieldsOf(index);
  made.className = "line" + (shownLines.includes(index) ? " shown" : "");
  made.setAttribute("role", "row");
  made.setAttribute("aria-rowindex", index + 1);
  made.tabIndex = index === line ? 0 : -1;
  made.dataset.line = index;
  addFields(made, fields, 0, LINKS_AT_ONCE);
  if (fields.length > LINKS_AT_ONCE) {
    const rest = document.createElement("button");
    rest.type = "button";
    rest.tabIndex = -1;
    rest.textContent = "and " + (fields.length - LINKS_AT_ONCE) + " more";
    rest.addEventListener("click", (event) => {
      event.stopPropagation();
      rest.remove();
      addFields(made, fields, LINKS_AT_ONCE, fields.length);
      made.focus();
    });
    made.append("\t", rest);
  }
  return made;
}

function cellMade(p) {
  const row = length === 0 ? undefined : mapBlocks.rowMade(Math.floor(p / columns));
  return row && row.children[1 + p % columns];
}

function cellAt(p) {
  return mapBlocks.rowAt(Math.floor(p / columns)).children[1 + p % columns];
}

// Puts on or takes off what shows that bytes and lines are chosen, where they are made; others are made so.
function mark(on) {
  for (let p = stretch[0]; p < stretch[1]; p++) {
    cellMade(p)?.classList.toggle("shown", on);
  }
  shownLines.forEach((index) => listingBlocks.rowMade(index)?.classList.toggle("shown", on));
  const cell = cellMade(place);
  if (cell) {
    cell.tabIndex = on ? 0 : -1;
  }
  const row = lines.length === 0 ? undefined : listingBlocks.rowMade(line);
  if (row) {
    row.tabIndex = on ? 0 : -1;
  }
}

// Scrolls a pane, and nothing around it, so that a row of it is in view; in the middle if it was not.
function bring(pane, row) {
  const top = row.getBoundingClientRect().top - pane.getBoundingClientRect().top - pane.clientTop;
  if (top < 0 || top + row.offsetHeight > pane.clientHeight) {
    pane.scrollTop += top - (pane.clientHeight - row.offsetHeight) / 2;
  }
}

function tellByte(p) {
  const found = linesAt(p).map((index) => fieldsOf(index).join(" "));
  byId("told").textContent = hex(p, 4) + ": " + hex(image[p], 2) + ", " + wordsOf(p) + ". " + (found.join("; ") || "No line lists it.");
}

function showByte(p) {
  mark(false);
  place = p;
  shownLines = linesAt(p);
  stretch = [p, p + 1];
  if (shownLines.length) {
    line = shownLines[0];
    stretch = [lines[line].position, lines[line].position + lines[line].size];
    bring(listing, listingBlocks.rowAt(line));
  }
  bring(map, cellAt(p));
  mark(true);
  tellByte(p);
}

// An L, O or A line has the byte at its position.
function showLine(index) {
  const { position, size, letter } = lines[index];
  const bytes = Math.max(size, position < length ? 1 : 0);
  mark(false);
  line = index;
  shownLines = [index];
  stretch = [position, position + bytes];
  bring(listing, listingBlocks.rowAt(index));
  if (bytes > 0) {
    place = position;
    bring(map, cellAt(position));
  }
  mark(true);
  const of = { I: "an instruction", D: "data", L: "a target", O: "instructions that overlap", A: "from where control arrives" };
  byId("told").textContent = fieldsOf(index).slice(0, 20).join(" ") + ". " + of[letter] + ", " + (size || "no") + (size === 1 ? " byte" : " bytes") +
    ", line " + (index + 1) + " of " + lines.length + (bytes > 0 ? "." : "; the position is outside the image.");
}

// Goes to a position's line, or to its byte where no line lists it.
function goTo(p) {
  showByte(p);
  (shownLines.length ? listingBlocks.rowAt(line) : cellAt(p)).focus({ preventScroll: true });
}

function goToHash() {
  const p = /^#[0-9A-F]{4}$/.test(location.hash) ? parseInt(location.hash.slice(1), 16) : length;
  if (p < length) {
    goTo(p);
  }
}

function moveInMap(event) {
  const steps = { ArrowLeft: -1, ArrowRight: 1, ArrowUp: -columns, ArrowDown: columns, PageUp: -16 * columns, PageDown: 16 * columns };
  const rowStart = place - place % columns;
  let to = place + (steps[event.key] || 0);
  if (event.key === "Home") {
    to = event.ctrlKey ? 0 : rowStart;
  } else if (event.key === "End") {
    to = event.ctrlKey ? length - 1 : Math.min(rowStart + columns, length) - 1;
  } else if ((event.key === "Enter" || event.key === " ") && linesAt(place).length) {
    event.preventDefault();
    goTo(place);
    return;
  } else if (!steps[event.key]) {
    return;
  }
  event.preventDefault();
  const by = Math.abs(steps[event.key] || 0);
  if ((to < 0 || to >= length) && by <= columns) {
    return;
  }
  showByte(Math.max(0, Math.min(to, length - 1)));
  cellAt(place).focus({ preventScroll: true });
}

// Right goes to the next link of the line, Left to the one before, or to the line.
function moveInLine(event, row) {
  const links = Array.from(row.querySelectorAll("a, button"));
  const at = links.indexOf(document.activeElement) + (event.key === "ArrowRight" ? 1 : -1);
  event.preventDefault();
  (at < 0 ? row : links[Math.min(at, links.length - 1)] || row).focus();
}

function moveInListing(event) {
  const row = event.target.closest(".line");
  const steps = { ArrowUp: -1, ArrowDown: 1, PageUp: -LINES_IN_PAGE, PageDown: LINES_IN_PAGE, Home: -lines.length, End: lines.length };
  if (event.key === "ArrowRight" || event.key === "ArrowLeft") {
    moveInLine(event, row);
  } else if (steps[event.key]) {
    event.preventDefault();
    showLine(Math.max(0, Math.min(line + steps[event.key], lines.length - 1)));
    listingBlocks.rowAt(line).focus({ preventScroll: true });
  } else if ((event.key === "Enter" || event.key === " ") && event.target === row && lines[line].position < length) {
    event.preventDefault();
    showLine(line);
    cellAt(place).focus({ preventScroll: true });
  }
}

function findPosition(event) {
  const wanted = byId("position").value.trim();
  const p = /^[0-9A-Fa-f]{1,4}$/.test(wanted) ? parseInt(wanted, 16) : NaN;
  event.preventDefault();
  if (p < length) {
    showByte(p);
  } else if (Number.isNaN(p)) {
    byId("told").textContent = "A position is one to four hex digits.";
  } else {
    byId("told").textContent = "There is no position " + hex(p, 4) + ": the image has " + length + " bytes.";
  }
}

function mnemonicOf(index) {
  const from = text.indexOf("\t", lines[index].at + 7) + 1;
  const stop = text.indexOf("\t", from);
  return text.slice(from, stop < 0 || stop > lines[index].end ? lines[index].end : stop);
}

// The I lines of a mnemonic; from the line shown to the next of them or the one before, round the ends.
function findMnemonic(forward) {
  const wanted = byId("mnemonic").value.trim().toLowerCase();
  const found = [];
  lines.forEach(({ letter }, index) => {
    if (letter === "I" && mnemonicOf(index) === wanted) {
      found.push(index);
    }
  });
  if (found.length === 0) {
    byId("told").textContent = wanted === "" ? "Which mnemonic?" : "No line has the mnemonic " + wanted + ".";
    return;
  }
  const begun = shownLines.length > 0;
  const ahead = found.findIndex((index) => (begun && forward ? index > line : index >= line));
  const next = ahead < 0 ? 0 : ahead;
  const at = forward ? next : ((ahead < 0 ? found.length : ahead) + found.length - 1) % found.length;
  showLine(found[at]);
  byId("told").textContent += " " + (at + 1) + " of " + found.length + " with " + wanted + ".";
}

function offerMnemonics() {
  const known = new Set();
  lines.forEach(({ letter }, index) => letter === "I" && known.add(mnemonicOf(index)));
  byId("mnemonics").replaceChildren(...Array.from(known).sort().map((name) => {
    const option = document.createElement("option");
    option.value = name;
    return option;
  }));
}

function columnsWanted() {
  return (narrow.matches ? 8 : 16) * (byId("small").checked ? 4 : 1);
}

// Not on paper, which is another width for a while and takes the map as it is.
function widthChanged() {
  if (!printing && columns !== columnsWanted()) {
    drawMap();
  }
}

function drawMap() {
  const hadFocus = map.contains(document.activeElement);
  columns = columnsWanted();
  map.classList.toggle("small", byId("small").checked);
  map.style.setProperty("--columns", columns);
  map.setAttribute("aria-rowcount", Math.ceil(length / columns));
  mapBlocks?.end();
  mapBlocks = new Blocks(map, Math.ceil(length / columns), ROWS_IN_BLOCK, makeMapRow);
  if (length === 0) {
    map.textContent = "The image has no bytes.";
    return;
  }
  bring(map, cellAt(place));
  if (hadFocus) {
    cellAt(place).focus({ preventScroll: true });
  }
}

function drawListing() {
  listing.setAttribute("aria-rowcount", lines.length);
  listingBlocks = new Blocks(listing, lines.length, LINES_IN_BLOCK, makeLine);
  if (lines.length === 0) {
    listing.textContent = "The listing has no lines.";
  } else {
    listingBlocks.rowAt(0);
  }
}

function listenToPanes() {
  map.addEventListener("click", (event) => {
    const cell = event.target.closest(".byte");
    if (cell) {
      showByte(Number(cell.dataset.position));
      cell.focus({ preventScroll: true });
    }
  });
  listing.addEventListener("click", (event) => {
    const link = event.target.closest("a");
    const row = event.target.closest(".line");
    if (link && link.hash === location.hash) {
      goToHash();
    } else if (row && !link) {
      showLine(Number(row.dataset.line));
      row.focus({ preventScroll: true });
    }
  });
  map.addEventListener("keydown", (event) => event.target.closest(".byte") && !event.altKey && !event.metaKey && moveInMap(event));
  listing.addEventListener("keydown", (event) => event.target.closest(".line") && !event.altKey && !event.metaKey && moveInListing(event));
}

function listenToRest() {
  byId("by-position").addEventListener("submit", findPosition);
  byId("by-mnemonic").addEventListener("submit", (event) => {
    event.preventDefault();
    findMnemonic(true);
  });
  byId("previous").addEventListener("click", () => findMnemonic(false));
  byId("mnemonic").addEventListener("focus", offerMnemonics, { once: true });
  narrow.addEventListener("change", widthChanged);
  byId("small").addEventListener("change", drawMap);
  addEventListener("hashchange", goToHash);
  addEventListener("afterprint", () => {
    printing = false;
  });
  addEventListener("beforeprint", () => {
    printing = true;
    mapBlocks.makeAll();
    listingBlocks.makeAll();
  });
}

readLines();
count();
drawMap();
drawListing();
listenToPanes();
listenToRest();
goToHash();
requestAnimationFrame(() => setTimeout(() => performance.mark("ready")));
})();
