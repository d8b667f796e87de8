// What a step did, and the registers and instructions around it.

const ACCESS = { f: "fetches the word at", r: "reads the word at", b: "reads the byte at",
  w: "writes the word at", c: "writes the byte at" };
const WHO = { boot: "the start after power-on or a reset", cpu: "the instruction at",
  irq: "an interrupt entry before the instruction at", rom: "a call of the attestation ROM, at",
  idle: "nobody, asleep before the instruction at" };
const REGISTERS = ["sp", "sr", ...Array.from({ length: 12 }, (_, number) => `r${number + 4}`)];
const FLAGS = [[1, "C"], [2, "Z"], [4, "N"], [8, "GIE"], [16, "CPUOFF"], [256, "V"]];
const AROUND = 5; // lines of the listing before and behind the instruction

// The words of the instruction in which a step is, as they were fetched; behind a short one that is
// made again and again, the same once more.
function fetchedWords(columns, step) {
  const { pc, kind, cpu_op: op, cpu_address: at, fetch_word: word } = columns;
  const isOf = (other) => kind[other] === kindNumber("cpu") && pc[other] === pc[step];
  const isFetch = (other) => op[other] === ACCESS_FETCH;
  let first = step;
  while (first > 0 && isOf(first) && !(isFetch(first) && at[first] === pc[step])) first -= 1;
  const words = [];
  for (let next = first; next < pc.length - 1 && isOf(next) && words.length < 3; next += 1) {
    if (isFetch(next)) words.push(word[next]);
  }
  return words;
}

const ACCESS_FETCH = "f".charCodeAt(0);

function accessText(op, address, data) {
  if (op === NOTHING) return "none";
  const letter = String.fromCharCode(op);
  const value = "bc".includes(letter) ? hex2(data & 255) : hex4(data);
  return `${ACCESS[letter]} ${hex4(address)}: ${value}`;
}

function flagNames(status) {
  return FLAGS.filter(([bit]) => status & bit).map(([, name]) => name).join(" ");
}

function registerCell(columns, name, step) {
  const before = columns[name][step], after = columns[name][step + 1];
  const flags = name === "sr" && before ? ` ${flagNames(before)}` : "";
  const changed = before !== after;
  const text = `${name} ${hex4(before)}${flags}${changed ? ` → ${hex4(after)}` : ""}`;
  return element("td", { className: changed ? "changed" : "" }, text);
}

function showRegisters(columns, step) {
  const cells = [element("td", {}, `pc ${hex4(columns.pc[step])}`),
    ...REGISTERS.map((name) => registerCell(columns, name, step))];
  const rows = [];
  while (cells.length) rows.push(element("tr", {}, ...cells.splice(0, 4)));
  $("registers").tBodies[0].replaceChildren(...rows);
}

function pair(columns, name, step) {
  const before = columns[name][step], after = columns[name][step + 1];
  return before === after ? `${before}` : `${before}, and ${after} after the step`;
}

// The rows of the table on a step.
function factsOf(columns, step) {
  const at = (name) => columns[name][step];
  const rule = lettersOf(at("rule"));
  const range = (first, last) => `${hex4(at(first))} to ${hex4(at(last))}`;
  const refused = "nothing of it happened, and the device resets";
  const facts = [
    ["Processor or ROM", accessText(at("cpu_op"), at("cpu_address"), at("cpu_data"))],
    ["DMA", accessText(at("dma_op"), at("dma_address"), at("dma_data"))],
    ["Refused", rule ? `rule ${rule}: ${DATA.rules[rule].about}; ${refused}` : "no"],
    ["EXEC", pair(columns, "exec", step)], ["AUX", pair(columns, "aux", step)],
    ["Interrupt could be accepted", at("irq") ? "yes" : "no"],
    ["Region, output", `${range("er_min", "er_max")}, ${range("or_min", "or_max")}`],
    ["Pins, timer's flag", `${hex4(at("pins"))}, ${at("timer_flag")}`],
  ];
  if (at("sent") !== NOTHING) facts.push(["Sent", letterOf(at("sent"))]);
  if (at("received") !== NOTHING) facts.push(["Received", hex2(at("received"))]);
  return facts;
}

function showListing(listing, place) {
  const lines = listing.split("\n").filter(Boolean);
  let at = lines.findIndex((line) => parseInt(line, 16) >= place);
  if (at < 0) at = lines.length;
  const shown = lines.slice(Math.max(0, at - AROUND), at + AROUND + 1);
  $("listing").replaceChildren(...shown.map((line) => {
    const item = element("li", {}, line);
    if (parseInt(line, 16) === place) item.setAttribute("aria-current", "step");
    return item;
  }));
}

// Shows a step of which there are signals; `instruction` disassembles words at a place.
async function showStep(columns, step, listing, instruction) {
  const kind = lettersOf(columns.kind[step]), place = columns.pc[step];
  const said = `${WHO[kind]}${kind === "boot" ? "" : ` ${hex4(place)}`}`;
  $("step-said").textContent = `At work: ${said}.`;
  $("step-facts").tBodies[0].replaceChildren(
    ...factsOf(columns, step).map(([name, text]) => row(headed(name), text)));
  showRegisters(columns, step);
  showListing(listing, place);
  const words = kind === "cpu" ? fetchedWords(columns, step) : [];
  const text = words.length ? await instruction(place, words) : "";
  return text ? `At work: ${said}: ${text}` : null;
}

// Of a step behind those: what the end line says of it.
function showEnd(end, step) {
  $("step-said").textContent = end ? `After step ${grouped(step)}: ${end}` : "";
  const text = `Signals and registers are shown of the first ${grouped(DATA.shown)} steps.`;
  $("step-facts").tBodies[0].replaceChildren(row(text));
  $("registers").tBodies[0].replaceChildren();
  $("listing").replaceChildren();
}
