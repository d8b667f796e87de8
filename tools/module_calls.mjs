// node module_calls.mjs MODULE, for tools/library_trial.py
//
// Makes the calls that stand on standard input, one a line, in one instance of the module, and puts
// a line of each: the exit code, the count, the piece, and the size of the memory behind it. A call
// has words, the names of its files, and the room of its piece, or none for one that suffices.
import { readFileSync } from "node:fs";
import { Device } from "../examples/library/device.mjs";

const device = new Device(readFileSync(process.argv[2]));
const read = new Map();

// (each file is read once)
const contents = (name) => {
  if (!read.has(name)) read.set(name, readFileSync(name));
  return read.get(name);
};

const answer = ({ words, names, room }) => {
  const files = Object.fromEntries(Object.entries(names).map(([as, name]) => [as, contents(name)]));
  if (room !== undefined) return device.call(words, files, room);
  const { status, text } = device.run(words, files);
  return { status, count: text.length, piece: text };
};

const lines = readFileSync(0, "utf8").split("\n").filter((line) => line);
process.stdout.write(lines.map((line) => {
  const { status, count, piece } = answer(JSON.parse(line));
  return `${status} ${count} ${device.memory.byteLength} ${Buffer.from(piece).toString("hex")}\n`;
}).join(""));
