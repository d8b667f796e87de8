// The module in a worker: it answers one request after the other, so that a long one can be ended
// with the worker. It stands below wave.js.
const FILES = ["image", "script", "key", "other"]; // in the order of the export
const MOST = 1 << 30; // bytes of a text
let compiled, device, broken = "";

// The bytes in the module's memory: their place and their length.
function put(bytes, held) {
  const place = take(Math.max(bytes.length, 1), held);
  new Uint8Array(device.memory.buffer).set(bytes, Number(place));
  return [place, BigInt(bytes.length)];
}

// A piece of the module's memory that is not written yet.
function take(length, held) {
  const place = device.device_alloc(BigInt(length));
  if (!place) throw new Error("no memory");
  held.push(place);
  return place;
}

// One call with room for so many bytes: its status, how long the text is, and the bytes, as a copy.
function callOnce(words, files, room) {
  const held = [];
  const given = [new TextEncoder().encode(words.join("\n")), ...FILES.map((name) => files[name])];
  const pieces = given.flatMap((bytes) => put(bytes || new Uint8Array(0), held));
  const out = take(room, held), length = take(8, held);
  const status = device.device_run(...pieces, out, BigInt(room), length);
  const long = Number(new DataView(device.memory.buffer).getBigUint64(Number(length), true));
  const from = Number(out), count = Math.min(long, room);
  const bytes = new Uint8Array(device.memory.buffer).slice(from, from + count);
  held.forEach((place) => device.device_free(place));
  return { status, long, bytes };
}

// A call that is made again with more room where the text did not fit.
function call(words, files, room) {
  let ran = callOnce(words, files, room);
  for (let more = room; ran.status === 5 && more < MOST;) {
    more = Math.max(ran.long, 4 * more);
    ran = callOnce(words, files, more);
  }
  return ran;
}

function answer({ id, words, files, room, steps }) {
  const start = performance.now();
  const { status, bytes } = call(words, files, room);
  const ms = performance.now() - start;
  if (steps && status === 0) return { id, status, ms, columns: readWave(bytes, steps) };
  return { id, status, ms, text: new TextDecoder().decode(bytes) };
}

// Begins with the memory of the module as it was at first.
function begin() { device = new WebAssembly.Instance(compiled, {}).exports; }

function load(module) {
  try {
    compiled = new WebAssembly.Module(module);
    begin();
  } catch (error) {
    broken = String(error);
  }
}

self.onmessage = ({ data }) => {
  if (data.module) {
    load(data.module);
    return;
  }
  try {
    if (broken) throw new Error(broken);
    const answered = answer(data);
    const moved = Object.values(answered.columns || {}).map((column) => column.buffer);
    self.postMessage(answered, moved);
  } catch (error) {
    if (compiled) begin(); // (what was taken of its memory is not given back)
    self.postMessage({ id: data.id, error: String(error) });
  }
};
