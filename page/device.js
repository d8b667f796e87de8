// Where a run comes from: the module, in a worker that can be ended, or what a picture has of it.

const KINDS = ["image", "script", "key", "policy"];
const FIRST_ROOM = 1 << 20, WAVE_ROOM = 1 << 16, WAVE_BYTES = 90; // bytes of a text, and of a step

class Stopped extends Error {}

// The bytes of a block of the page that holds a base64 of a gzip.
async function unpacked(text) {
  const packed = Uint8Array.from(atob(text), (letter) => letter.charCodeAt(0));
  const stream = new Blob([packed]).stream().pipeThrough(new DecompressionStream("gzip"));
  return new Uint8Array(await new Response(stream).arrayBuffer());
}

class Live {
  constructor(module, source) {
    this.module = module;
    this.place = URL.createObjectURL(new Blob([source], { type: "text/javascript" }));
    this.number = 0;
    this.start();
  }

  start() {
    this.waiting = new Map();
    this.worker = new Worker(this.place);
    this.worker.onmessage = ({ data }) => {
      const { resolve, reject } = this.waiting.get(data.id);
      this.waiting.delete(data.id);
      if (data.error) reject(new Error(data.error));
      else resolve(data);
    };
    this.worker.onerror = ({ message }) => this.refuse(new Error(message || "no worker starts"));
    this.worker.postMessage({ module: this.module });
  }

  refuse(error) {
    for (const { reject } of this.waiting.values()) reject(error);
    this.waiting.clear();
    this.broken = error;
  }

  // Ends what runs, and begins with a new worker.
  stop() {
    this.worker.terminate();
    this.refuse(new Stopped());
    this.broken = null;
    this.start();
  }

  ask(request) {
    if (this.broken) return Promise.reject(this.broken);
    return new Promise((resolve, reject) => {
      this.number += 1;
      this.waiting.set(this.number, { resolve, reject });
      this.worker.postMessage({ id: this.number, ...request });
    });
  }

  // What a command answers; `files` by the names image, script, key and other.
  run(words, files, room = FIRST_ROOM) {
    return this.ask({ words: words.map(String), files, room });
  }

  // The printed text, its status, the memory after the last step, the columns of the waveform, and
  // the listing; all are asked for at once, so that the worker never waits.
  async play(files, steps) {
    const words = ["round", "image", "script", "key", "other", steps];
    const [dumped, judged, { columns }, listing] = await Promise.all([
      this.memory(files, steps), files.other.length ? this.run(words, files) : null,
      this.wave(files, steps), this.listing(files.image)]);
    return { ...dumped, ...(dumped.status === 0 && judged), columns, listing };
  }

  // What `play` prints, and the memory behind it.
  async memory(files, steps) {
    const ran = await this.run(["dump", "image", "script", "key", steps], files);
    if (ran.status !== 0) return ran;
    const end = ran.text.search(/^:/m);
    return { ...ran, text: ran.text.slice(0, end), memory: bytesOfHex(ran.text.slice(end)) };
  }

  async wave(files, steps) {
    const shown = Math.min(steps, DATA.shown);
    const words = ["wave", "image", "script", "key", `${shown}`];
    return this.ask({ words, files, room: WAVE_ROOM + WAVE_BYTES * shown, steps: shown });
  }

  async listing(image) {
    const ran = await this.run(["list", "image"], { image });
    return ran.status === 0 ? ran.text : "";
  }

  // The instruction that these words at a place are.
  async instruction(place, words) {
    const bytes = words.flatMap((word) => [word & 255, word >> 8]);
    const text = await this.listing(new TextEncoder().encode(hexOfPieces([[place, bytes]])));
    return text.split("\n")[0].slice(6);
  }
}

// A picture: one run, whose memory is known after its last step alone.
class Still {
  constructor(data) { this.data = data; }

  async play() {
    const { text, status, memory, wave, shown, listing } = this.data;
    const columns = readWave(await unpacked(wave), shown);
    return { text, status, memory: bytesOfHex(memory), columns, listing };
  }

  async memory() { return { status: 0 }; }

  async instruction(place) {
    const line = this.data.listing.split("\n").find((each) => each.startsWith(`${hex4(place)}: `));
    return line ? line.slice(6) : "";
  }
}
