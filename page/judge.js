// For an operator: verdicts on reports, with their reasons.

const JUDGED = ["image", "policy", "key", "reports"];

class Judge {
  constructor(device, run) {
    Object.assign(this, { device, run });
    const take = { prefix: "judge", file: (bytes, kind) => this.boxes[kind].put(bytes) };
    this.boxes = boxesOf(JUDGED, "judge-boxes", take);
    $("take").onclick = () => this.take();
    $("decide").onclick = () => this.decide();
  }

  // The files of the run, and what it printed as reports.
  take() {
    for (const kind of ["image", "policy", "key"]) this.boxes[kind].put(this.run.boxes[kind].bytes);
    this.boxes.reports.put(encoded(this.run.printed));
  }

  // The reports stand in the module's file `script`, the policy in `other`.
  async decide() {
    const files = Object.fromEntries(JUDGED.map((kind) => [kind, this.boxes[kind].bytes]));
    const made = await imageOf(files.image, this.device);
    const all = $("each").checked ? ["--all"] : [];
    const given = { image: made.image, key: files.key, other: files.policy, script: files.reports };
    const ran = made.status ? made
      : await this.device.run(["verify", ...all, "image", "other", "key", "script"], given);
    const told = { ...files, image: made.image, source: files.image };
    showFault(ran.status > 1 ? await faultOf(ran, told, this.device) : null);
    this.show(ran, files);
  }

  show({ status, text }, { reports }) {
    const lines = status > 1 ? [] : text.split("\n").filter(Boolean);
    const given = decoded(reports).split(/\r?\n/).map((line) => line.trim().split(/[ \t]+/))
      .filter(([kind]) => kind === "report2" || kind === "report");
    fill("verdicts", lines.map((line) => this.rowOf(line, given)));
    const count = lines.filter((line) => line.endsWith(" accept")).length;
    $("decided").textContent = status > 1 ? "Nothing was judged"
      : `${count} of ${given.length} reports accepted; exit code ${status}`;
  }

  rowOf(line, given) {
    const [kind, number, verdict] = line.split(" ");
    if (kind !== "verdict") {
      return row("", line, "", "", ...meaningOf({ kind, words: line.split(" ") }));
    }
    const words = given[number - 1] || [], at = (name) => words[words.indexOf(name) + 1] || "";
    const [means, remedy] = DATA.verdicts[verdict];
    const output = verdict === "accept" ? at("data") : "not to be used";
    return row(number, verdict, words[0] === "report2" ? at("count") : "", output, means, remedy);
  }
}
