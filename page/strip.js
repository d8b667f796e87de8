// The signals of a run over its steps.

const LABEL = 46; // points for the names of the tracks
const TRACKS = [["EXEC", 4], ["AUX", 26], ["bus", 48], ["DMA", 70], ["lines", 86]];
const TALL = 18, AXIS = 114, TICKS = [1, 2, 5];
const STRIP_KEYS = { exec: "EXEC is 1", aux: "AUX is 1", cpu: "processor", rom: "attestation ROM",
  irq: "interrupt entry", idle: "asleep", boot: "start", dma: "DMA", reset: "reset",
  event: "byte sent, report or denial" };
const BUS = ["irq", "rom", "boot", "cpu", "idle"]; // of several in a point the first is shown

const colour = (name) => getComputedStyle(document.documentElement).getPropertyValue(`--${name}`);

class Strip {
  constructor(canvas, choose) {
    Object.assign(this, { canvas, choose, from: 0, to: 1, steps: 1, step: 0 });
    const pick = (event) => {
      const at = (event.offsetX - LABEL) / (canvas.clientWidth - LABEL);
      const step = Math.floor(this.from + at * (this.to - this.from));
      choose(Math.max(0, Math.min(this.steps - 1, step)));
    };
    canvas.onpointerdown = (event) => { canvas.setPointerCapture(event.pointerId); pick(event); };
    canvas.onpointermove = (event) => { if (event.buttons) pick(event); };
    canvas.addEventListener("wheel", (event) => {
      if (!event.ctrlKey) return;
      event.preventDefault();
      this.zoom(event.deltaY < 0 ? 0.5 : 2);
    }, { passive: false });
    const keys = Object.entries(STRIP_KEYS).map(([name, text]) => keyed(name, text));
    $("strip-keys").replaceChildren(...keys);
  }

  show(columns, events, steps) {
    const changed = steps !== this.steps;
    Object.assign(this, { columns, events, steps, shown: columns.exec.length - 1 });
    this.summary = BUS.map(kindNumber);
    if (changed) this.window(0, steps);
    this.draw();
    $("strip-said").textContent = this.told();
  }

  window(from, to) {
    const width = Math.min(this.steps, Math.max(20, Math.round(to - from)));
    this.from = Math.max(0, Math.min(this.steps - width, Math.round(from)));
    this.to = this.from + width;
  }

  // Another part of the steps around the chosen one.
  zoom(factor) {
    const half = (this.to - this.from) * factor / 2;
    this.window(this.step - half, this.step + half);
    this.draw();
  }

  all() { this.window(0, this.steps); this.draw(); }

  point(step) {
    this.step = step;
    if (step < this.from || step >= this.to) this.zoom(1);
    else this.draw();
  }

  // In which steps EXEC is 1, in words.
  told() {
    const { exec } = this.columns, runs = [];
    for (let step = 0; step < this.shown; step += 1) {
      if (exec[step + 1] && !exec[step]) runs.push([step, this.shown - 1]);
      if (!exec[step + 1] && exec[step]) runs[runs.length - 1][1] = step - 1;
    }
    const ranges = runs.slice(0, 6).map(([first, last]) => `${grouped(first)} to ${grouped(last)}`);
    const more = runs.length > 6 ? `, and ${grouped(runs.length - 6)} times more` : "";
    const told = runs.length ? `EXEC is 1 after the steps ${ranges.join(", ")}${more}.`
      : "EXEC is 0 after each of the steps.";
    if (this.shown === this.steps) return told;
    const shown = grouped(this.shown);
    return `Signals and registers are shown of the first ${shown} steps, lines of all. ${told}`;
  }

  x(step) { return LABEL + (step - this.from) / (this.to - this.from) * (this.width - LABEL); }

  draw() {
    if (!this.columns) return;
    const scale = window.devicePixelRatio || 1;
    this.width = this.canvas.clientWidth;
    this.canvas.width = this.width * scale;
    this.canvas.height = this.canvas.clientHeight * scale;
    const pen = this.canvas.getContext("2d");
    pen.scale(scale, scale);
    pen.font = "12px system-ui, 'DejaVu Sans', sans-serif";
    pen.textBaseline = "middle";
    pen.fillStyle = colour("ink");
    for (const [name, top] of TRACKS) pen.fillText(name, 2, top + TALL / 2);
    this.drawSignals(pen);
    this.drawEvents(pen);
    this.drawAxis(pen);
    pen.fillStyle = colour("main");
    pen.fillRect(this.x(this.step), 0, Math.max(2, this.x(this.step + 1) - this.x(this.step)), 3);
    pen.fillRect(this.x(this.step), 0, 2, AXIS);
  }

  drawSignals(pen) {
    const names = ["exec", "aux", "off", "dma", ...BUS];
    const colours = Object.fromEntries(names.map((name) => [name, colour(name)]));
    const [, [, aux], [, bus], [, dma]] = TRACKS;
    for (let x = LABEL; x < this.width; x += 1) {
      const first = this.stepAt(x), last = Math.max(first + 1, this.stepAt(x + 1));
      if (first >= this.shown) break;
      const sums = this.sums(first, Math.min(last, this.shown));
      const bar = (top, name, part) => {
        pen.fillStyle = colours.off;
        pen.fillRect(x, top, 1, TALL);
        pen.fillStyle = colours[name];
        pen.fillRect(x, top + TALL * (1 - part), 1, TALL * part);
      };
      bar(TRACKS[0][1], "exec", sums.exec);
      bar(aux, "aux", sums.aux);
      pen.fillStyle = colours[BUS[sums.kinds.findIndex(Boolean)]];
      pen.fillRect(x, bus, 1, TALL);
      if (sums.dma) {
        pen.fillStyle = colours.dma;
        pen.fillRect(x, dma + 2, 1, 8);
      }
    }
  }

  stepAt(x) {
    return Math.floor(this.from + (x - LABEL) / (this.width - LABEL) * (this.to - this.from));
  }

  // Of some steps: which part of them has EXEC and AUX, and which kinds and accesses there are.
  sums(first, end) {
    const { exec, aux, kind, dma_op: dma } = this.columns;
    const sums = { exec: 0, aux: 0, dma: false, kinds: BUS.map(() => false) };
    for (let step = first; step < end; step += 1) {
      sums.exec += exec[step + 1];
      sums.aux += aux[step + 1];
      if (dma[step] !== NOTHING) sums.dma = true;
      sums.kinds[this.summary.indexOf(kind[step])] = true;
    }
    sums.exec /= end - first;
    sums.aux /= end - first;
    return sums;
  }

  drawEvents(pen) {
    const top = TRACKS[4][1];
    for (const { kind, step } of this.events) {
      if (step < this.from || step >= this.to || kind === "end" || kind === "verdict") continue;
      const x = this.x(step);
      pen.fillStyle = colour(kind === "reset" ? "reset" : "event");
      if (kind === "reset") pen.fillRect(x, 0, 2, top + TALL);
      else if (kind === "tx") pen.fillRect(x, top + 8, 1.5, 8);
      else pen.fillRect(x, top, 4, 16);
    }
  }

  drawAxis(pen) {
    const room = (this.to - this.from) / Math.max(1, (this.width - LABEL) / 90);
    const ten = 10 ** Math.floor(Math.log10(Math.max(room, 1)));
    const tick = (TICKS.find((each) => each * ten >= room) || 10) * ten;
    pen.fillStyle = colour("ink");
    for (let step = Math.ceil(this.from / tick) * tick; step < this.to; step += tick) {
      const text = grouped(step), x = this.x(step);
      pen.fillRect(x, AXIS - 4, 1, 5);
      if (x + pen.measureText(text).width < this.width) pen.fillText(text, x + 2, AXIS + 8);
    }
  }
}

// The number of the column `kind` that spells this kind.
const kindNumber = (name) => [...name].reduce((sum, letter) => sum * 256 + letter.charCodeAt(0), 0);

function keyed(name, text) {
  const swatch = element("span", { className: "swatch" });
  swatch.style.background = `var(--${name})`;
  return element("li", {}, swatch, text);
}
