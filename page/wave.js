// The waveform that `wave` prints, as a column of numbers for each of its wires.

const NOTHING = -1; // in a column where the text has z

// Calls `change(code, value)` for each change of the text and `time(step)` for each of its times.
function eachChange(bytes, from, change, time) {
  let at = from;
  const end = bytes.length;
  while (at < end) {
    const first = bytes[at];
    if (first === 0x23) { // '#'
      let step = 0;
      for (at += 1; bytes[at] !== 10; at += 1) step = step * 10 + bytes[at] - 0x30;
      time(step);
    } else if (first === 0x62) { // 'b'
      let value = 0;
      for (at += 1; bytes[at] !== 0x20; at += 1) {
        value = bytes[at] === 0x7a ? NOTHING : value * 2 + bytes[at] - 0x30;
      }
      change(bytes[at + 1], value);
    } else if (first === 0x30 || first === 0x31) {
      change(bytes[at + 1], first - 0x30);
    }
    while (at < end && bytes[at] !== 10) at += 1;
    at += 1;
  }
}

// The names of the wires by the codes of their characters, and where the changes begin.
function wiresOf(bytes) {
  const head = new TextDecoder().decode(bytes.subarray(0, Math.min(bytes.length, 8192)));
  const wires = new Map();
  for (const [, code, name] of head.matchAll(/^\$var wire \d+ (.) (\w+)/gm)) {
    wires.set(code.charCodeAt(0), name);
  }
  return { wires, from: head.indexOf("#0\n") };
}

// The columns by the names of the wires, each with a value for every step and one after the last.
function readWave(bytes, steps) {
  const { wires, from } = wiresOf(bytes);
  const columns = {}, held = [];
  for (const [code, name] of wires) {
    columns[name] = new Int32Array(steps + 1);
    held[code] = { column: columns[name], value: 0, since: 0 };
  }
  let now = 0;
  eachChange(bytes, from, (code, value) => {
    const wire = held[code];
    wire.column.fill(wire.value, wire.since, now);
    wire.value = value;
    wire.since = now;
  }, (step) => { now = step; });
  for (const code of wires.keys()) {
    held[code].column.fill(held[code].value, held[code].since);
  }
  return columns;
}

// The characters of a number of the columns `kind` and `rule`.
function lettersOf(value) {
  let text = "";
  for (let rest = value; rest > 0; rest = Math.floor(rest / 256)) {
    text = String.fromCharCode(rest % 256) + text;
  }
  return text;
}
