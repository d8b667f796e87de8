// Numbers, files of bytes, and the elements of the page.

const $ = (id) => document.getElementById(id);
const hex = (value, digits) => value.toString(16).padStart(digits, "0");
const hex2 = (value) => hex(value, 2), hex4 = (value) => hex(value, 4);
const grouped = (value) => value.toLocaleString("en");
const encoded = (text) => new TextEncoder().encode(text);
const decoded = (bytes) => new TextDecoder().decode(bytes);

function element(name, properties = {}, ...children) {
  const made = Object.assign(document.createElement(name), properties);
  made.append(...children);
  return made;
}

// A row of a table; what is no cell is put into one. The roles stay where a narrow page shows the
// cells below each other.
function row(...cells) {
  return element("tr", { role: "row" }, ...cells.map((cell) => (
    cell instanceof HTMLTableCellElement ? cell : element("td", { role: "cell" }, cell))));
}

const headed = (...parts) => element("th", { scope: "row", role: "rowheader" }, ...parts);
const coded = (...parts) => element("td", { className: "code", role: "cell" }, ...parts);

// Puts rows into a table. Their cells know their heads, for a narrow page, which shows them below
// each other.
function fill(id, rows) {
  const heads = [...$(id).tHead.rows[0].cells].map((cell) => cell.textContent);
  for (const { cells } of rows) {
    [...cells].forEach((cell, at) => { cell.dataset.head = heads[at]; });
  }
  $(id).tBodies[0].replaceChildren(...rows);
}

function save(name, bytes) {
  const link = element("a", { download: name, href: URL.createObjectURL(new Blob([bytes])) });
  link.click();
  setTimeout(() => URL.revokeObjectURL(link.href), 1000);
}

// The bytes of the data records of an Intel HEX that the program printed.
function bytesOfHex(text) {
  const memory = new Uint8Array(65536);
  for (const [, count, place, digits] of text.matchAll(/^:(..)(....)00(.*)..$/gm)) {
    for (let at = 0; at < parseInt(count, 16); at += 1) {
      memory[parseInt(place, 16) + at] = parseInt(digits.substr(2 * at, 2), 16);
    }
  }
  return memory;
}

function hexRecord(place, type, bytes) {
  const record = [bytes.length, place >> 8 & 255, place & 255, type, ...bytes];
  const sum = record.reduce((one, other) => one + other, 0);
  return `:${[...record, -sum & 255].map(hex2).join("").toUpperCase()}\n`;
}

// Intel HEX of pieces of at most 65,536 bytes, each a place and its bytes.
function hexOfPieces(pieces) {
  const lines = [];
  for (const [place, bytes] of pieces) {
    for (let at = 0; at < bytes.length; at += 16) {
      lines.push(hexRecord(place + at, 0, [...bytes.slice(at, at + 16)]));
    }
  }
  return lines.join("") + hexRecord(0, 1, []);
}

const ALLOCATED = 2, LOADED = 1, NO_BITS = 8; // of an ELF file

// Rows of a table of an ELF file, each its words.
function elfRows(view, first, size, count, words) {
  const word = (number, at) => view.getUint32(first + number * size + 4 * at, true);
  return Array.from({ length: count }, (_, number) => (
    Array.from({ length: words }, (__, at) => word(number, at))));
}

// An ELF file of 32 bits as Intel HEX: what its sections hold, at the addresses at which they are
// loaded, as llvm-objcopy writes it. Null where it is no such file.
function hexOfElf(bytes) {
  const view = new DataView(bytes.buffer, bytes.byteOffset, bytes.byteLength);
  const half = (at) => view.getUint16(at, true), word = (at) => view.getUint32(at, true);
  try {
    const segments = elfRows(view, word(28), half(42), half(44), 5)
      .filter(([type]) => type === LOADED);
    const sections = elfRows(view, word(32), half(46), half(48), 6)
      .filter(([, type, flags, , , size]) => flags & ALLOCATED && type !== NO_BITS && size);
    const pieces = sections.map(([, , , place, from, size]) => {
      const end = from + size, held = bytes.subarray(from, end);
      const of = segments.find(([, first, , , length]) => from >= first && end <= first + length);
      return [of ? of[3] + from - of[1] : place, held];
    });
    return pieces.length ? hexOfPieces(pieces.sort(([one], [other]) => one - other)) : null;
  } catch (error) {
    if (error instanceof RangeError) return null; // (it ends within a table)
    throw error;
  }
}
