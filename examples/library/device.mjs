// node device.mjs MODULE COMMAND ARGUMENT..
//
// Answers as `foldgneiss COMMAND ARGUMENT..` does, with the device in node. MODULE is device.wasm.
import { readFileSync, statSync, writeSync } from "node:fs";
import { pathToFileURL } from "node:url";

export const NAMES = ["image", "script", "key", "other"]; // of the files of a call
const TOO_LONG = 5; // the exit code where a text is longer than the piece for it

// The device of a module's bytes. Its memory grows for the largest call, and never shrinks.
export class Device {
  constructor(bytes) {
    this.module = new WebAssembly.Instance(new WebAssembly.Module(bytes), {}).exports;
  }

  get memory() {
    return this.module.memory.buffer;
  }

  // One call with a piece of so many bytes: the exit code, the count, and the piece.
  call(words, files, room) {
    const held = [];
    const taken = (bytes) => {
      const place = this.module.device_alloc(BigInt(bytes));
      if (!place) throw new RangeError("no memory for a call");
      held.push(place);
      return place;
    };
    const given = [new TextEncoder().encode(words.join("\n")), ...NAMES.map((name) => files[name] ?? [])];
    try {
      const places = given.map((bytes) => [taken(bytes.length), BigInt(bytes.length)]);
      const piece = taken(room);
      const count = taken(8);
      // (the memory may have moved where it grew)
      places.forEach(([place], i) => new Uint8Array(this.memory).set(given[i], Number(place)));
      const status = this.module.device_run(...places.flat(), piece, BigInt(room), count);
      return {
        status,
        count: Number(new DataView(this.memory).getBigUint64(Number(count), true)),
        piece: new Uint8Array(this.memory).slice(Number(piece), Number(piece) + room),
      };
    } finally {
      held.forEach((place) => this.module.device_free(place));
    }
  }

  // The exit code, with the whole text or the line on standard error.
  run(words, files) {
    let answer = this.call(words, files, 1 << 16);
    if (answer.status === TOO_LONG) answer = this.call(words, files, answer.count);
    return { status: answer.status, text: answer.piece.subarray(0, answer.count) };
  }
}

const isFile = (name) => statSync(name, { throwIfNoEntry: false })?.isFile() ?? false;

// The words of a command line, and the files that it names, each under a name of a call.
function inMemory(commandLine) {
  const files = {};
  const words = commandLine.map((word) => {
    if (!isFile(word)) return word;
    const name = NAMES[Object.keys(files).length];
    files[name] = readFileSync(word);
    return name;
  });
  return [words, files];
}

if (import.meta.url === pathToFileURL(process.argv[1]).href) {
  const device = new Device(readFileSync(process.argv[2]));
  const { status, text } = device.run(...inMemory(process.argv.slice(3)));
  if (status <= 1) writeSync(1, text);
  else writeSync(2, `${new TextDecoder().decode(text)}\n`);
  process.exitCode = status;
}
