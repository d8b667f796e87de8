// The files of a run or of a judgement, in boxes that take text, dropped and chosen files.

const ELF = [0x7f, 0x45, 0x4c, 0x46];
const START = 1 << 16; // bytes of a file, in which a line tells of what kind it is

const beginsWith = (bytes, start) => start.every((byte, at) => bytes[at] === byte);

// The kind of a file, by the first line that says something; null where it is not known.
function kindOf(bytes) {
  const lines = decoded(bytes.subarray(0, START)).split("\n");
  const line = lines.find((each) => each.trim() && !"#;".includes(each.trim()[0])) || "";
  const found = Object.entries(DATA.forms).find(([, { line: form, flags }]) => (
    new RegExp(`^(?:${form})`, flags).test(line)));
  return found ? found[0] : null;
}

// A box of the page with a file in it, whose bytes are those that came until it is edited.
class Box {
  constructor(kind, about, take) {
    this.kind = kind;
    this.bytes = new Uint8Array(0);
    const id = `${take.prefix}-${kind}`;
    this.area = element("textarea", { id, spellcheck: false, autocomplete: "off" });
    this.area.oninput = () => { this.bytes = encoded(this.area.value); };
    this.chooser = element("input", { type: "file" });
    this.chooser.setAttribute("aria-label", `Choose a file for the ${kind}`);
    this.chooser.onchange = async () => take.file(await bytesOf(this.chooser.files[0]), kind);
    const label = element("label", { htmlFor: id }, kind[0].toUpperCase() + kind.slice(1));
    this.frame = element("div", { className: "box" }, label,
      element("p", { className: "dim" }, `${about}.`), this.area, this.chooser);
  }

  put(bytes) {
    this.bytes = bytes;
    this.area.value = decoded(bytes);
  }
}

// A box for each kind of file, all in one frame.
function boxesOf(kinds, frame, take) {
  const boxes = kinds.map((kind) => [kind, new Box(kind, DATA.files[kind].about, take)]);
  $(frame).replaceChildren(...boxes.map(([, box]) => box.frame));
  return Object.fromEntries(boxes);
}

const bytesOf = async (file) => new Uint8Array(await file.arrayBuffer());

// The image of what was given as one: Intel HEX as it is, an ELF file and a source made into it.
async function imageOf(bytes, device) {
  if (beginsWith(bytes, ELF)) return { status: 0, image: encoded(hexOfElf(bytes) || "") };
  if (kindOf(bytes) !== "source") return { status: 0, image: bytes };
  const ran = await device.run(["asm", "image"], { image: bytes });
  return { ...ran, image: encoded(ran.text) };
}

// A sentence of ./foldgneiss on a mistaken file, with these words in it.
function ofMistaken(name, ...words) {
  return DATA.mistaken[name].replace(/\{\}/g, () => words.shift());
}

// Why a file is no key that has the bytes of one, or how many it has.
function aboutKey(bytes) {
  const text = String.fromCharCode(...bytes.subarray(0, DATA.files.key.limit));
  if (bytes.length > text.length) return "";
  if (/[^\t-\r -~]/.test(text)) {
    return bytes.length === 64 ? ofMistaken("key_in_bytes") : ofMistaken("bytes", bytes.length);
  }
  const digits = text.trim().replace(/^0[xX]|[\s:]/g, ""), count = digits.length;
  if (!/^[0-9A-Fa-f]+$/.test(digits)) return "";
  if (count !== 128) return ofMistaken("digits", count, count % 2 ? "" : `, ${count / 2} bytes`);
  const lines = text.replace(/\r?\n$/, "").split("\n").length;
  const beside = { "a 0x in front": /^\s*0[xX]/, [`${lines} lines`]: /\n[^]/,
    "a blank": /[ \t]/, "a colon": /:/ };
  const found = Object.keys(beside).filter((name) => beside[name].test(text));
  return ofMistaken("beside", found.join(" and "));
}

function aboutImage(bytes) {
  const start = decoded(bytes.subarray(0, START));
  const other = DATA.images.find(([, form]) => new RegExp(`^(?:${form})`).test(start));
  return other ? ofMistaken("hex", other[0]) : "";
}

// Why the lines of a policy of version 2 are none.
function aboutPolicy(bytes) {
  const firsts = decoded(bytes).split("\n").map((line) => line.trim().split(/\s+/)[0]);
  const isOfTwo = !firsts.includes("version") && firsts.some((word) => /^(flag|ask)$/.test(word));
  return isOfTwo ? ofMistaken("version") : "";
}

const ABOUT = { key: aboutKey, image: aboutImage, policy: aboutPolicy };

// What a file with a fault is, if it is something that is known, in the words of ./foldgneiss.
function mistaken(kind, bytes) {
  const form = kindOf(bytes);
  if (form && form !== kind) {
    return ofMistaken("misplaced", "this", DATA.forms[form].name, kind.toUpperCase());
  }
  const mark = DATA.marks.find((each) => beginsWith(bytes, each));
  if (mark) return ofMistaken(mark.length === 3 ? "marked" : "utf16");
  return kind in ABOUT ? ABOUT[kind](bytes) : "";
}

// Whether a line can have no key in it: as ./foldgneiss shows none that might.
function isShown(kind, line) {
  if (kind === "key" || /[0-9A-Fa-f]{65,}/.test(line)) return false;
  const { line: form, flags } = DATA.forms[kind];
  return new RegExp(`^(?:${form})`, flags).test(line);
}

// How a file of a kind is read, beside files that have no fault: the words, and what it is there.
const READ_AS = { script: [["play", "image", "script", "key", "1"], "script"],
  policy: [["verify", "image", "other", "key", "script"], "other"],
  reports: [["verify", "image", "other", "key", "script"], "script"] };
const OF_A_WORD = ["Word", "Digit", "Count", "Range", "Extra"];

// The column of the word in which a fault is, 0 where it is of the whole line. The program tells
// it: the line is cut behind one word more each time, until that is refused for the same fault.
async function columnOf({ kind, number, fault }, files, device) {
  if (!(kind in READ_AS) || number === 0) return 0;
  const lines = decoded(files[kind]).split("\n"), line = lines[number - 1].replace(/\r$/, "");
  const [words, place] = READ_AS[kind];
  const others = { image: files.image, key: files.key, other: files.policy };
  const refusal = async (text) => {
    const cut = encoded([...lines.slice(0, number - 1), text].join("\n"));
    return (await device.run(words, { ...others, [place]: cut })).text;
  };
  if (fault === "Missing") {
    const isWhole = await refusal(`${line} x`) === `bad ${kind}: line ${number}: Extra`;
    return isWhole ? 0 : line.length + 1;
  }
  if (!OF_A_WORD.includes(fault)) return 0;
  for (const { index, 0: word } of line.matchAll(/[^ \t]+/g)) {
    const said = await refusal(line.slice(0, index + word.length));
    if (said === `bad ${kind}: line ${number}: ${fault}`) return index + 1;
  }
  return 0;
}

// What is wrong, by the program's line and status: paragraphs, the line of the file, and a column.
async function faultOf({ status, text: line }, files, device) {
  const match = /^bad (\w+): line (\d+): (\w+)/.exec(line);
  if (!match) {
    const { cause, remedy } = DATA.statuses[status];
    return { said: [line || DATA.statuses[status].line, `${cause}${remedy ? `: ${remedy}` : ""}`] };
  }
  const [, kind, , fault] = match, number = Number(match[2]);
  const bytes = files[kind] || new Uint8Array(0), hint = mistaken(kind, bytes);
  const parts = (DATA.faults[kind][fault] || fault).split("; or ");
  const meaning = parts[number ? 0 : parts.length - 1];
  const limit = fault === "TooLong" ? `, ${DATA.files[kind].limit} bytes` : "";
  const shown = decoded(bytes).split("\n")[number - 1];
  const column = shown === undefined ? 0 : await columnOf({ kind, number, fault }, files, device);
  const place = [kind, number && `line ${number}`, column && `column ${column}`].filter(Boolean);
  return { said: [line, `${place.join(", ")}: ${meaning}${limit}`, hint].filter(Boolean), column,
    line: shown !== undefined && !hint && isShown(kind, shown) ? shown : "" };
}

function showFault(fault) {
  $("fault").hidden = !fault;
  if (!fault) return;
  $("fault").replaceChildren(...fault.said.map((text) => element("p", {}, text)));
  const mark = fault.column ? `\n${" ".repeat(fault.column - 1)}^` : "";
  if (fault.line) $("fault").append(element("pre", {}, fault.line + mark));
}
