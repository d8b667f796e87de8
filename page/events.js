// The lines of a printed text, and what each means.

const MOST_ROWS = 300;

function eventsOf(text) {
  const events = [];
  let report = null;
  for (const line of text.split("\n")) {
    const words = line.split(" ");
    const event = { line, kind: words[0], words, step: Number(words[1]) };
    if (event.kind === "report2") report = event;
    if (event.kind === "verdict" || event.kind === "collision") {
      event.step = report ? report.step : 0;
    }
    if (line) events.push(event);
  }
  return events;
}

// The bytes that were sent, as text.
const sentText = (events) => events.filter(({ kind }) => kind === "tx")
  .map(({ words }) => letterOf(parseInt(words[2], 16))).join("");

function letterOf(byte) {
  return (byte >= 32 && byte < 127) || byte === 10 ? String.fromCharCode(byte) : `\\x${hex2(byte)}`;
}

// What a report tells, in a sentence.
function tellReport({ words }) {
  const [exec, aux, count, er, erEnd, or, orEnd, output] = [3, 5, 7, 11, 12, 14, 15, 17]
    .map((at) => words[at]);
  return `It is of the code ${er} to ${erEnd} and its output ${or} to ${orEnd}, `
    + `which is ${output}; EXEC is ${exec}, AUX ${aux}, and the request's counter ${count}.`;
}

function resetMeaning(event) {
  const { about, cause, remedy } = DATA.rules[event.words[2]];
  const isEarly = event.words[2] === "I1" && event.step <= 3;
  const usual = isEarly ? DATA.no_vector : { cause, remedy };
  if (usual.cause === about || !usual.remedy) return [about, usual.remedy];
  const said = usual.cause[0].toLowerCase() + usual.cause.slice(1);
  return [`${about}. Usual cause: ${said}`, usual.remedy];
}

// The sentences of docs/ on a line, in which its own numbers stand for S, N and I.
function ofLine([means, remedy], { words }) {
  const told = means.replace(/\b(step|After|the) (S|N|N-th|I-th)\b/g, (_, before, letter) => (
    `${before} ${letter.replace(/^[SNI]/, words[1])}`));
  return [told, remedy];
}

// What a line means, and what to do.
function meaningOf(event) {
  const { kind, words } = event;
  if (kind === "reset") return resetMeaning(event);
  if (kind === "denied") return ofLine(DATA.lines[`denied S ${words[2]}`], event);
  if (kind === "verdict") return DATA.verdicts[words[2]];
  if (kind === "report2") {
    const [means, remedy] = ofLine(DATA.lines.report2, event);
    return [`${means}. ${tellReport(event)}`, remedy];
  }
  return ofLine([DATA.printed[kind] || "", ""], event);
}

function showEvents(events, choose) {
  const told = events.filter(({ kind }) => kind !== "tx");
  const rows = told.slice(0, MOST_ROWS).map((event) => {
    const go = element("button", { type: "button", className: "plain" }, grouped(event.step));
    go.onclick = () => choose(event.kind === "end" ? event.step - 1 : event.step);
    return row(go, coded(event.line), ...meaningOf(event));
  });
  if (told.length > MOST_ROWS) {
    const more = grouped(told.length - MOST_ROWS);
    rows.push(row("", `and ${more} lines more, which are printed below`, "", ""));
  }
  fill("events", rows);
}

// The sent text, that of later steps apart.
function showSent(events, step) {
  const text = sentText(events.filter((event) => event.step <= step));
  const later = sentText(events.filter((event) => event.step > step));
  $("sent").replaceChildren(text, element("span", { className: "later" }, later));
  if (!text && !later) $("sent").textContent = "(nothing was sent)";
}
