// The page: what is played, which step is chosen, and what is shown of it.

const DATA = JSON.parse($("data").textContent);
const MOST_STEPS = 10000000, LONG = 400, FIRST_RATE = 8000; // milliseconds; steps in one of them
const PRINTED_MOST = 200000; // letters that are shown of a text

class Page {
  constructor(device) {
    Object.assign(this, { device, printed: "", step: 0, steps: 1, rate: FIRST_RATE, listing: "" });
    const take = { prefix: "run", file: (bytes, kind) => this.put(kind, bytes) };
    this.boxes = boxesOf(KINDS, "file-boxes", take);
    this.strip = new Strip($("strip"), (step) => this.choose(step));
    this.memory = new MemoryView($("map"));
    this.judge = new Judge(device, this);
  }

  put(kind, bytes) {
    if (kind in this.boxes) this.boxes[kind].put(bytes);
    this.play();
  }

  files() {
    const { image, script, key, policy } = this.boxes;
    return { image: image.bytes, script: script.bytes, key: key.bytes, other: policy.bytes };
  }

  // Plays the files and chooses a step; while a play runs, behind it.
  play(step = null) {
    if (!$("steps").reportValidity()) return Promise.resolve();
    this.wanted = { step };
    if (!this.busy) this.running = this.playWanted();
    return this.running;
  }

  async playWanted() {
    this.busy = true;
    while (this.wanted) {
      const wanted = this.wanted;
      this.wanted = null;
      await this.playOnce(wanted).catch((error) => this.failed(error));
    }
    this.busy = false;
    this.typedAt = undefined;
  }

  failed(error) {
    this.wanted = null;
    $("said").textContent = error instanceof Stopped ? "Stopped" : "";
    showFault(error instanceof Stopped ? null : { said: [String(error.message || error)] });
  }

  async playOnce({ step }) {
    const steps = Number($("steps").value), given = this.files();
    const ran = await this.timed(steps, async () => {
      const made = await imageOf(given.image, this.device);
      const files = { ...given, image: made.image };
      const played = made.status ? made : await this.device.play(files, steps);
      return { ...played, files };
    });
    const isFaulty = ran.status > 1;
    const told = { ...ran.files, policy: given.other, source: given.image };
    const fault = isFaulty ? await faultOf(ran, told, this.device) : null;
    if (fault && this.columns) fault.said.push("What is shown below is the run before.");
    showFault(fault);
    this.status = ran.status;
    this.printed = isFaulty ? "" : ran.text;
    $("said").textContent = `Exit code ${ran.status}${isFaulty ? "" : `, ${grouped(steps)} steps`}`;
    if (!isFaulty) await this.show(ran, steps, step);
  }

  // A run, with progress where it takes long; how far it is is estimated.
  async timed(steps, run) {
    const start = performance.now(), whole = steps / this.rate;
    const ticking = setInterval(() => {
      const past = performance.now() - start, part = Math.min(0.99, past / whole);
      if (past < LONG) return;
      $("progress").hidden = false;
      $("progress").value = part;
      const share = Math.round(100 * part);
      $("said").textContent = `Playing ${grouped(steps)} steps, some ${share} %`;
    }, 100);
    $("stop").disabled = false;
    try {
      const ran = await run();
      if (steps >= DATA.shown) this.rate = steps / (performance.now() - start);
      return ran;
    } finally {
      clearInterval(ticking);
      $("progress").hidden = $("stop").disabled = true;
    }
  }

  async show(ran, steps, step) {
    const { columns, listing, files } = ran;
    Object.assign(this, { steps, listing, columns, played: files, last: ran.memory });
    this.events = eventsOf(ran.text);
    $("printed").textContent = ran.text.length > PRINTED_MOST
      ? `${ran.text.slice(0, PRINTED_MOST)}\n.. (the rest is in the file that is saved)` : ran.text;
    $("slider").max = $("step").max = steps - 1;
    showEvents(this.events, (chosen) => this.choose(chosen));
    this.strip.show(columns, this.events, steps);
    const chosen = this.choose(step === null ? steps - 1 : step);
    performance.mark("shown"); // (all but the instruction, which the worker tells)
    await chosen;
  }

  // Shows a step; what is worked out of it is dropped where another was chosen meanwhile.
  async choose(step) {
    this.step = Math.max(0, Math.min(this.steps - 1, Math.floor(step) || 0));
    for (const id of ["slider", "step"]) $(id).value = this.step;
    $("slider").setAttribute("aria-valuetext", `step ${this.step} of ${this.steps}`);
    $("step-head").textContent = `${grouped(this.step)} of ${grouped(this.steps)}`;
    this.strip.point(this.step);
    showSent(this.events, this.step);
    this.setLink();
    if (this.choosing) return;
    this.choosing = true;
    let shown = -1;
    while (shown !== this.step) {
      shown = this.step;
      await this.showChosen(shown).catch((error) => this.failed(error));
    }
    this.choosing = false;
  }

  async showChosen(step) {
    const hasSignals = step < this.columns.exec.length - 1;
    const ran = step === this.steps - 1 ? { status: 0, memory: this.last, text: this.printed }
      : await this.timed(step, () => this.device.memory(this.played, step + 1));
    if (ran.memory) {
      $("memory-head").textContent = grouped(step);
      this.memory.show(ran.memory);
    }
    if (!hasSignals) {
      showEnd((ran.text || "").trim().split("\n").pop(), step);
      return;
    }
    const instruction = (place, words) => this.device.instruction(place, words);
    const said = await showStep(this.columns, step, this.listing, instruction);
    if (said && step === this.step) $("step-said").textContent = said;
  }

  nextEvent(sign) {
    const isBeyond = ({ step, kind }) => kind !== "end" && sign * (step - this.step) > 0;
    const others = this.events.filter(isBeyond);
    if (others.length) this.choose(sign > 0 ? others[0].step : others[others.length - 1].step);
  }

  // Lets bytes arrive at the chosen step, and goes on from there.
  type(bytes) {
    const pace = Math.max(1, Number($("pace").value) || 1);
    const at = Math.min(this.typedAt ?? this.step, MOST_STEPS - 1);
    const line = `at ${at} rx ${[...bytes].map(hex2).join("")}`;
    this.boxes.script.put(encoded(withLine(decoded(this.boxes.script.bytes), at, line)));
    this.typedAt = Math.min(at + pace, MOST_STEPS - 1);
    if (Number($("steps").value) <= this.typedAt) $("steps").value = this.typedAt + 1;
    this.play(this.typedAt);
  }

  // A link can hold an example, and no files that were changed.
  setLink() {
    const { example, boxes, steps, step } = this;
    const isExample = example && KINDS.every((kind) => (
      decoded(boxes[kind].bytes) === (example[kind] || "")));
    $("link").hidden = !isExample;
    if (!isExample) return;
    const words = new URLSearchParams({ example: example.name, steps, step });
    $("link").href = `#${words}`;
  }

  pick(name) {
    const example = DATA.examples.find((each) => each.name === name) || DATA.examples[0];
    this.example = example;
    $("example").value = example.name;
    for (const kind of KINDS) this.boxes[kind].put(encoded(example[kind] || ""));
    $("steps").value = example.steps;
    $("told").textContent = example.about;
  }

  // The example and step of a link, or the first example.
  followLink() {
    const words = new URLSearchParams(location.hash.slice(1));
    this.pick(words.get("example"));
    if (words.get("steps")) $("steps").value = words.get("steps");
    if (!$("steps").checkValidity()) $("steps").value = this.example.steps;
    return this.play(words.get("step") === null ? null : Number(words.get("step")));
  }
}

// A script with a line more, behind all lines of no later step.
function withLine(script, step, line) {
  const lines = script.split("\n");
  if (lines[lines.length - 1] === "") lines.pop();
  let place = 0;
  lines.forEach((each, at) => {
    const match = /^[ \t]*at[ \t]+(\d+)/.exec(each);
    if (match && Number(match[1]) <= step) place = at + 1;
  });
  if (!lines.some((each) => /^[ \t]*at[ \t]/.test(each))) place = lines.length;
  lines.splice(place, 0, line);
  return `${lines.join("\n")}\n`;
}

function openTab(name) {
  for (const tab of document.querySelectorAll("[role=tab]")) {
    const isOpen = tab.id === `tab-${name}`;
    tab.setAttribute("aria-selected", isOpen);
    tab.tabIndex = isOpen ? 0 : -1;
    $(tab.getAttribute("aria-controls")).hidden = !isOpen;
    if (isOpen && tab.parentNode.contains(document.activeElement)) tab.focus();
  }
}

function wireTabs() {
  const tabs = [...document.querySelectorAll("[role=tab]")];
  tabs.forEach((tab, at) => {
    const name = tab.id.slice(4);
    tab.onclick = () => openTab(name);
    tab.onkeydown = (event) => {
      const move = { ArrowRight: 1, ArrowLeft: -1 }[event.key];
      if (move) openTab(tabs[(at + move + tabs.length) % tabs.length].id.slice(4));
    };
  });
}

// A dropped file goes to the place of its kind: reports to the judge, all else to the run.
async function dropped(page, file) {
  const bytes = await bytesOf(file), kind = beginsWith(bytes, ELF) ? "image" : kindOf(bytes);
  const place = kind === "source" ? "image" : kind;
  if (place === "reports") {
    page.judge.boxes.reports.put(bytes);
    openTab("judge");
  } else if (place in page.boxes) {
    $("example").value = "";
    $("told").textContent = `${file.name} is in the place of the ${place}.`;
    page.put(place, bytes);
  } else {
    showFault({ said: [`${file.name}: no image, script, key, policy or reports.`] });
  }
}

function wireDrops(page) {
  document.ondragover = (event) => { event.preventDefault(); document.body.classList.add("over"); };
  document.ondragleave = () => document.body.classList.remove("over");
  document.ondrop = async (event) => {
    event.preventDefault();
    document.body.classList.remove("over");
    for (const file of [...event.dataTransfer.files]) await dropped(page, file);
  };
}

function wireSerial(page) {
  const send = (text) => { if (text) page.type(encoded(text)); };
  $("type").oninput = () => {
    const text = $("type").value;
    $("type").value = "";
    send(text);
  };
  $("type").onkeydown = (event) => { if (event.key === "Enter") send("\n"); };
  $("save-script").onclick = () => save("script.txt", page.boxes.script.bytes);
}

function wire(page) {
  $("bar").onsubmit = (event) => { event.preventDefault(); page.play(); };
  $("go-files").onclick = () => { openTab("run"); page.play(); };
  $("stop").onclick = () => page.device.stop();
  $("example").onchange = () => { page.pick($("example").value); page.play(); };
  $("slider").oninput = () => page.choose(Number($("slider").value));
  $("step").onchange = () => page.choose(Number($("step").value));
  $("before").onclick = () => page.nextEvent(-1);
  $("after").onclick = () => page.nextEvent(1);
  $("nearer").onclick = () => page.strip.zoom(0.5);
  $("farther").onclick = () => page.strip.zoom(2);
  $("all").onclick = () => page.strip.all();
  $("link").onclick = (event) => {
    event.preventDefault();
    history.replaceState(null, "", $("link").href);
    $("said").textContent = "The address of the page is now that of this step";
  };
  $("save-printed").onclick = () => save("printed.txt", page.printed);
  window.onhashchange = () => page.followLink();
  const redraw = () => { page.strip.draw(); page.memory.draw(); };
  new ResizeObserver(redraw).observe($("strip-frame"));
  matchMedia("(prefers-color-scheme: dark)").onchange = redraw;
}

async function start() {
  $("version").textContent = DATA.version;
  $("caveats").replaceChildren(...DATA.caveats.map((text) => element("p", {}, text)));
  if (DATA.run) return startStill();
  const page = new Page(new Live(await unpacked($("module").textContent), $("worker").textContent));
  $("example").replaceChildren(...DATA.examples.map(({ name }) => new Option(name, name)));
  wireTabs();
  wireDrops(page);
  wireSerial(page);
  wire(page);
  window.page = page; // for whoever looks into it by the browser's console
  return page.followLink();
}

// The picture of a run.
function startStill() {
  document.body.classList.add("picture");
  const page = new Page(new Still(DATA.run));
  wire(page);
  $("told").textContent = DATA.run.words;
  $("steps").value = DATA.run.steps;
  $("steps").readOnly = true;
  window.page = page;
  return page.play();
}

start().catch(({ message }) => showFault({ said: [`This browser cannot run it: ${message}`] }));
