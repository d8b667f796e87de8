// The memory after a step.

const ROW = 256, LINES = 16;
const META_WORDS = { er: [0x260, 0x262], or: [0x264, 0x266] };

const wordAt = (memory, place) => memory[place] + 256 * memory[place + 1];

// The code and output region that the metadata name, where their bounds are in order.
function namedRegion(memory, name) {
  const [first, last] = META_WORDS[name].map((place) => wordAt(memory, place));
  return last >= first && first ? [first, last + 1] : null;
}

// What lies where: a name, the first and the last place, a colour, and words on it.
function zonesOf(memory) {
  const { RAM, MR, META, XS, KR, CR, program, vectors } = DATA.regions;
  const er = namedRegion(memory, "er"), or = namedRegion(memory, "or");
  const count = wordAt(memory, 0x26c) + 65536 * wordAt(memory, 0x26e);
  const flags = `EXEC ${memory[0x268]}, AUX ${memory[0x26a]}, counter ${grouped(count)}`;
  const zones = [["RAM", RAM, "paper", "variables and stack"],
    ["program", program, "paper", "code"],
    ["vectors", vectors, "boot", "where interrupts and the start begin"],
    ["MAC", MR, "aux", "what the last call of the ROM left"],
    ["metadata", META, "meta", `request and bounds: ${flags}`],
    ["attestation ROM", CR, "rom", "not shown"],
    ["exclusive stack", XS, "secret", "a secret, never shown"],
    ["key", KR, "secret", "a secret, never shown"]];
  if (er) zones.push(["region (ER)", er, "er", "the code whose run is attested"]);
  if (or) zones.push(["output (OR)", or, "or", "its output, which the report tells"]);
  return zones;
}

const isKnown = (place) => ["RAM", "program", "vectors"].some((name) => {
  const [first, last] = DATA.regions[name];
  return place >= first && place <= last;
});

// The red, green and blue of a colour of the page.
function channels(name) {
  const digits = colour(name).trim().slice(1);
  return [0, 2, 4].map((at) => parseInt(digits.slice(at, at + 2), 16));
}

class MemoryView {
  constructor(canvas) {
    this.canvas = canvas;
    this.memory = null;
    canvas.onclick = (event) => {
      const scale = 256 / canvas.clientWidth;
      const [x, y] = [event.offsetX, event.offsetY].map((at) => Math.floor(at * scale));
      this.look(y * ROW + x);
    };
    $("place").onchange = () => this.look(parseInt($("place").value, 16) || 0);
    $("lower").onclick = () => this.look(this.place() - LINES * this.wide());
    $("higher").onclick = () => this.look(this.place() + LINES * this.wide());
  }

  // The bytes of a line.
  wide() { return window.innerWidth < 500 ? 8 : 16; }

  place() { return parseInt($("place").value, 16) || 0; }

  // Shows the bytes from the line of this place on.
  look(place) {
    const last = 65536 - LINES * this.wide();
    const first = Math.max(0, Math.min(last, place - place % this.wide()));
    $("place").value = hex4(first);
    if (this.memory) this.showBytes();
  }

  show(memory) {
    this.memory = memory;
    this.zones = zonesOf(memory);
    this.draw();
    this.showBytes();
    const rows = this.zones.map((zone) => this.zoneRow(zone)).reverse();
    $("zones").tBodies[0].replaceChildren(...rows);
  }

  zoneRow([name, [first, last], tint, text]) {
    const swatch = element("span", { className: "swatch" });
    swatch.style.background = `var(--${tint})`;
    const range = `${hex4(first)} to ${hex4(last)}`;
    const go = element("button", { type: "button", className: "plain" }, range);
    go.onclick = () => this.look(first);
    return row(headed(swatch, name), coded(go), text);
  }

  draw() {
    if (!this.memory) return;
    const paper = channels("paper"), byte = channels("byte"), none = channels("none");
    const tints = new Array(65536);
    for (const [, [first, last], tint] of this.zones) {
      if (tint !== "paper") tints.fill(channels(tint), first, last + 1);
    }
    const picture = new ImageData(ROW * 2, ROW * 2);
    const small = new Uint32Array(picture.data.buffer);
    for (let place = 0; place < 65536; place += 1) {
      const tint = tints[place], full = this.memory[place];
      const blank = isKnown(place) ? paper : none;
      const part = full ? 1 : 0.35;
      const shade = tint ? tint.map((one, at) => one * part + blank[at] * (1 - part))
        : full ? byte : blank;
      const value = 0xff000000 | shade[2] << 16 | shade[1] << 8 | shade[0];
      const at = (place >> 8) * 2 * ROW * 2 + (place & 255) * 2;
      small[at] = small[at + 1] = small[at + 2 * ROW] = small[at + 2 * ROW + 1] = value;
    }
    this.canvas.getContext("2d").putImageData(picture, 0, 0);
  }

  showBytes() {
    const lines = [], wide = this.wide(), start = this.place();
    for (let at = start; at < start + LINES * wide; at += wide) {
      const places = Array.from({ length: wide }, (_, on) => at + on);
      const bytes = places.map((place) => (isKnown(place) ? hex2(this.memory[place]) : "··"));
      const letters = places.map((place) => {
        const value = this.memory[place];
        return value >= 32 && value < 127 ? String.fromCharCode(value) : ".";
      });
      lines.push(`${hex4(at)}  ${bytes.join(" ")}  ${letters.join("")}`);
    }
    $("bytes").textContent = lines.join("\n");
  }
}
