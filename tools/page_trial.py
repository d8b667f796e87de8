"""Trials of the page and of ./foldgneiss picture in a headless Chromium, where there is one: what
they show is what the programs print.
"""
import base64
import json
import os
import re
import struct
import time
import zlib
from typing import Any, Dict, List

import browser
import mistaken_files
import page_file
import run_picture
import wave_model
from file_readers import Fault
from readers import READERS
from reference import FAULTS, FILES, STATUSES
from sample_files import EXAMPLES, FIRST_FAULTS, Example, SampleFiles, read
from trial import ROOT, Trial

MODULE = f"{ROOT}/crates/device_library/out/device.wasm"
READY = "window.page && page.columns && !page.busy && !page.choosing"
SEEDS = range(1, 26)
MOST_BYTES, MOST_TIME, MOST_STEPS = 450_000, 1000, "10000000"  # (the time in milliseconds)
REGISTERS = ("sp", "sr", *(f"r{number}" for number in range(4, 16)))
WITH_COLUMNS = ("script", "policy")
# Of texts, and of signs and the frames of controls.
CONTRASTS = {4.5: "ink/paper dim/paper main/paper ink/tint dim/tint main/tint main-ink/main "
                  "ink/alarm-tint",
             3: "exec/paper aux/paper cpu/paper rom/paper irq/paper boot/paper dma/paper "
                "reset/paper event/paper alarm/paper"}
# A control that a reader of the screen has no name for.
NAMED = ("button", "textbox", "combobox", "slider", "spinbutton", "checkbox", "tab", "link")


class PageTrial:
    """The page in a tab, beside the programs."""

    def __init__(self, trial: Trial, files: SampleFiles, tab: browser.Tab) -> None:
        self.trial, self.files, self.tab = trial, files, tab

    def ready(self) -> None:
        self.tab.wait(READY, self.trial.seconds)

    def same(self, shown: Any, wanted: Any, what: str) -> None:
        """Counts a try, and says where what is shown is not what is wanted."""
        self.trial.tries += 1
        if shown != wanted:
            self.trial.fault(f"{what}: {str(shown)[:120]!r} in place of {str(wanted)[:120]!r}")

    def put(self, kind: str, text: bytes) -> None:
        """A file into its box, byte by byte."""
        digits = base64.b64encode(text).decode()
        self.tab.value(f"page.boxes.{kind}.put(Uint8Array.from(atob('{digits}'), "
                       "(letter) => letter.charCodeAt(0)))")

    def pick(self, name: str) -> None:
        self.tab.value(f"page.pick({json.dumps(name)}); page.play()")
        self.ready()

    def choose(self, step: int) -> None:
        self.tab.value(f"page.choose({step})")
        self.ready()

    def text(self, name: str) -> str:
        return self.tab.value(f"document.getElementById('{name}').textContent")

    def middle(self, name: str) -> List[float]:
        """The middle of an element, once it is in the window."""
        return self.tab.value(f"(() => {{ const it = document.getElementById('{name}');"
                              "it.scrollIntoView({ block: 'center' });"
                              "const at = it.getBoundingClientRect();"
                              "return [at.x + at.width / 2, at.y + at.height / 2]; })()")


def command_of(name: str) -> str:
    """The command of an example in the page: of one with a policy `round`."""
    return "round" if os.path.exists(f"{EXAMPLES}/{name}/policy.txt") else "play"


def examples(page: PageTrial) -> None:
    """Each example's text is that of the program, and so is its status."""
    for name in page_file.EXAMPLES:
        page.pick(name)
        answer = page.trial.call(*Example(name).words(command_of(name)))
        page.same(page.tab.value("page.printed"), answer.output.decode(), name)
        page.same(page.text("printed"), answer.output.decode(), f"{name} as it is shown")
        page.same(page.tab.value("page.status"), answer.status, f"{name}: the status")


def works(page: PageTrial) -> None:
    """The lines of workloads, with the SHA-256 of their texts."""
    for seed in SEEDS:
        line = page.tab.value(f"page.device.run(['work', '{seed}'], {{}}).then(({{text}}) => text)")
        page.same(line, page.trial.expect(0, "", "work", str(seed)).decode(), f"work {seed}")


def shown_step(page: PageTrial, example: Example, step: int, sample: Dict[str, int]) -> None:
    """The registers, the memory and the instruction of the step that is chosen."""
    what = f"{example.folder}, step {step}"
    cells = dict(re.findall(r"(\w+) ([0-9a-f]{4})", page.tab.value(
        "[...document.querySelectorAll('#registers td')].map((cell) => cell.textContent)"
        ".join('\\n')")))
    wanted = {register: "%04x" % sample[register] for register in ("pc", *REGISTERS)}
    page.same(cells, wanted, what)
    dump = page.trial.expect(0, "", *example.words("dump", steps=str(step + 1)))
    memory = READERS["image"](dump[dump.index(b":"):])
    shown = page.tab.value("[...page.memory.memory]")
    page.same({place: shown[place] for place in memory}, memory, f"{what}: memory")
    listing = page.trial.expect(0, "", "list", example.file("image")).decode()
    line = re.search(f"^{sample['pc']:04x}: (.*)$", listing, re.M)
    if page.tab.value(f"lettersOf(page.columns.kind[{step}])") == "cpu" and line:
        page.same(page.text("step-said").split(": ", 2)[-1], line[1], f"{what}: instruction")


def steps(page: PageTrial) -> None:
    """Registers, memory and instruction of steps are those that `wave`, `dump` and `list` have."""
    for name, chosen in (("round", (0, 1, 1050, 1055, 1100, 1191)), ("echo", (40, 110, 149)),
                         ("resets/attest", (26, 27, 29, 30))):
        example = Example(name)
        page.pick(name)
        samples = wave_model.samples(page.trial.expect(0, "", *example.words("wave")))
        writes = [step for step, sample in enumerate(samples) if sample["cpu_op"] == ord("w")]
        for step in sorted({*chosen, *writes[:2], *writes[-2:]}):
            page.choose(step)
            shown_step(page, example, step, samples[step])


def column_of(kind: str, text: bytes) -> List[str]:
    """The column of a fault of a word, by our own reader, which the page tells too."""
    try:
        READERS[kind](text)
    except Fault as fault:
        if kind in WITH_COLUMNS and fault.column and fault.kind != "Utf8":
            return [f"column {fault.column}"]
    return []


def mistakes(page: PageTrial) -> None:
    """What a file is that is none of its kind is said as ./foldgneiss says it, but for the command
    that mends it.
    """
    key, policy = read(page.files.key).strip(), read(Example("round").file("policy"))
    for kind, text in (("key", bytes(range(128, 192))), ("key", bytes(range(128, 191))),
                       ("key", key[:126]), ("key", key[:125]), ("key", b"0x" + key),
                       ("key", key[:64] + b"\n" + key[64:] + b"\n"),
                       ("key", key[:2] + b":" + key[2:]),
                       ("key", b"0x" + key[:2] + b" " + key[2:]), ("key", b""), ("key", b"at 5 x"),
                       ("image", b"S00600004844521B\n"), ("image", b"@c000\n31 40\n"),
                       ("image", b"\xef\xbb\xbf:00000001FF\n"), ("script", b"\xff\xfea\0"),
                       ("policy", policy.split(b"\n", 1)[1]), ("policy", b"er c000\n")):
        page.pick("round")
        page.put(kind, text)
        page.tab.value("page.play()")
        page.ready()
        said = page.tab.value("[...document.querySelectorAll('#fault p')].map((each) =>"
                              "each.textContent)")[2:-1]
        form = mistaken_files.kind_of(text)
        wanted = mistaken_files.hints(kind, "name", text) if form in (None, kind) else [
            f"this is {mistaken_files.FORMS[form].name}, in the place of {kind.upper()}"]
        told = [hint.replace("`", "")[:len(mine)] for hint, mine in zip(wanted, said)]
        page.same((len(said), said), (len(wanted), told), f"{kind} {text[:20]}")


def faults(page: PageTrial) -> None:
    """The first fault of each file has the program's status and line, and its place and meaning."""
    page.pick("round")
    boxes = {"key": "key", "image": "image", "script": "script", "policy": "policy",
             "source": "image"}
    for kind, box in boxes.items():
        for end, fault in FIRST_FAULTS[kind].items():
            page.pick("round")
            page.put(box, read(page.files[f"{kind}-{end}"]))
            page.tab.value("page.play()")
            page.ready()
            said = page.tab.value("[...document.querySelectorAll('#fault p')].map((each) =>"
                                  "each.textContent)")
            line = STATUSES[FILES[kind].status].line.replace("L: K", fault)
            page.same(said[:1], [line], f"{kind}-{end}")
            page.same(page.tab.value("page.status"), FILES[kind].status, f"{kind}-{end}: status")
            meaning = page_file.said_of(page_file.COMMANDS, FAULTS[kind][fault.split()[1]])
            place = [kind, *(f"line {number}" for number in fault.split(":")[:1] if number != "0"),
                     *column_of(kind, read(page.files[f"{kind}-{end}"]))]
            page.same([each.split(": ")[0] for each in said[1:2]], [", ".join(place)],
                      f"{kind}-{end}: the place")
            if said and meaning.split("; or ")[0] not in said[1]:
                page.trial.fault(f"{kind}-{end}: {said} has nothing of {meaning}")
    page.pick("round")
    page.same(page.tab.value("document.getElementById('fault').hidden"), True, "no fault is left")


def pointer(page: PageTrial) -> None:
    """A click on the strip and the slider choose a step."""
    page.pick("round")
    x, y = page.middle("strip")
    page.tab.click(x, y)
    page.ready()
    left = page.tab.value("document.getElementById('strip').getBoundingClientRect().x + LABEL"
                          "+ document.getElementById('strip').clientLeft")
    width = page.tab.value("document.getElementById('strip').clientWidth - LABEL")
    page.same(page.tab.value("page.step"), int((x - left) / width * 1192), "a click")
    page.tab.value("document.getElementById('slider').focus()")
    before = page.tab.value("page.step")
    page.tab.key("ArrowLeft")
    page.ready()
    page.same(page.tab.value("page.step"), before - 1, "the slider")
    page.same(page.text("memory-head"), f"{before - 1:,}", "the memory of the slider's step")
    page.tab.value("page.strip.zoom(0.5)")
    page.same(page.tab.value("page.strip.to - page.strip.from"), 596, "zoom")


def typed(page: PageTrial) -> None:
    """Keys at the serial port become lines of the script, with which `play` prints the same."""
    page.pick("echo")
    page.choose(149)
    page.tab.value("document.getElementById('type').focus()")
    for letter in "Hi":
        page.tab.key(letter)
        page.ready()
    page.tab.key("Enter")
    page.ready()
    script = page.tab.value("decoded(page.boxes.script.bytes)")
    lines = [f"at {149 + 200 * number} rx {byte}" for number, byte in enumerate(("48", "69", "0a"))]
    page.same(script.splitlines()[-3:], lines, "the lines of typed keys")
    example, steps = Example("echo"), page.tab.value("page.steps")
    saved = page.files.add("typed-script", script.encode())
    text = page.trial.expect(0, "", *example.words("play", script=saved, steps=str(steps))).decode()
    page.same(page.tab.value("page.printed"), text, "a typed script")
    if not page.text("sent").endswith("HI\n"):  # (the firmware sends capital letters)
        page.trial.fault(f"typed keys are not sent back: {page.text('sent')!r}")
    page.same(page.tab.value("document.getElementById('link').hidden"), True,
              "a link to changed files")
    page.choose(90)  # (at which bytes arrive)
    page.tab.key("x")
    page.ready()
    script = page.tab.value("decoded(page.boxes.script.bytes)")
    page.same(re.findall("^at.*", script, re.M)[2:4], ["at 90 rx 6869", "at 90 rx 78"],
              "a key at the step of another line")


def typed_fast(page: PageTrial) -> None:
    """Keys that are typed while the device plays keep their order and their distance."""
    page.pick("echo")
    page.choose(149)
    page.tab.value("document.getElementById('type').focus()")
    page.tab.value("for (const letter of 'abcde') page.type(encoded(letter))")
    page.ready()
    lines = page.tab.value("decoded(page.boxes.script.bytes)").splitlines()[-5:]
    page.same(lines, [f"at {149 + 200 * number} rx {ord(letter):02x}"
                      for number, letter in enumerate("abcde")], "keys that are typed fast")
    page.same(page.text("sent").endswith("ABCDE"), True, "what they have sent back")
    page.same(page.tab.value("page.step"), 149 + 5 * 200, "the step behind them")


def elf_of(image: bytes) -> bytes:
    """A file that holds an image as the sections of an ELF file of 32 bits, each of one byte, which
    are loaded elsewhere than where they run; its first segment has the head in it.
    """
    memory = READERS["image"](image)
    count, head_size = len(memory), 52
    first = head_size + 32 * (count + 1) + 40 * (count + 1)
    head = struct.pack("<4s5B7xHHIIIIIHHHHHH", b"\x7fELF", 1, 1, 1, 0, 0, 2, 105, 1, 0xC000,
                       head_size, head_size + 32 * (count + 1), 0, head_size, 32, count + 1, 40,
                       count + 1, 0)
    segments = [struct.pack("<8I", 1, 0, 0, 0, head_size, head_size, 4, 1)]
    sections = [bytes(40)]
    for at, place in enumerate(memory):
        segments.append(struct.pack("<8I", 1, first + at, 0x300, place, 1, 1, 5, 1))
        sections.append(struct.pack("<10I", 0, 1, 2, 0x300, first + at, 1, 0, 0, 1, 0))
    return b"".join([head, *segments, *sections, bytes(memory.values())])


def dropped(page: PageTrial) -> None:
    """Files that are dropped on the page go to the places of their kinds."""
    page.pick("letter-a")
    attest, stack = Example("attest"), Example("resets/stack")
    elf = page.files.add("letter.elf", elf_of(read(Example("letter-a").file("image"))))
    source = f"{stack.folder}/stack.asm"
    for name, box in ((attest.file("image"), "image"), (attest.file("script"), "script"),
                      (attest.file("key"), "key")):
        page.tab.drop(name)
        page.tab.wait(f"decoded(page.boxes.{box}.bytes) === {json.dumps(read(name).decode())}")
    page.tab.value(f"document.getElementById('steps').value = {attest.steps}; page.play()")
    page.ready()
    page.same(page.tab.value("page.printed"), attest.text.decode(), "dropped files")
    for name, example in ((elf, Example("letter-a")), (source, stack)):
        page.pick("letter-a")
        page.tab.value(f"document.getElementById('steps').value = {example.steps}")
        page.tab.drop(name)
        page.tab.wait(f"page.boxes.image.bytes.length === {os.path.getsize(name)}")
        page.ready()
        page.same(page.tab.value("page.printed"), example.text.decode(), f"{name}, dropped")


def judged(page: PageTrial) -> None:
    """Pasted reports have the verdicts of `verify --all`, each with its reason."""
    for name in ("sensor", "pump/guarded", "pump/forged"):
        example = Example(name)
        page.pick(name)
        page.tab.value("page.judge.take(); page.judge.decide()")
        rows = page.tab.value("[...document.querySelectorAll('#verdicts tbody tr')].map((line) =>"
                              "[...line.cells].map((cell) => cell.textContent))")
        printed = page.files.add("printed", page.tab.value("page.printed").encode())
        answer = page.trial.call(*example.words("verify", "--all", reports=printed))
        wanted = [line.split()[1:] if line.startswith("verdict") else ["", line]
                  for line in answer.output.decode().splitlines()]
        page.same([line[:2] for line in rows], wanted, f"{name}: verdicts")
        if not all(line[4] for line in rows):
            page.trial.fault(f"{name}: a verdict without a reason: {rows}")
        page.same(f"exit code {answer.status}" in page.text("decided"), True, f"{name}: exit code")


def links(page: PageTrial) -> None:
    """A link holds example and step."""
    page.pick("round")
    page.choose(1050)
    link = page.tab.value("document.getElementById('link').href")
    page.pick("echo")
    page.tab.value(f"location.hash = {json.dumps(link[link.index('#'):])}")
    page.tab.wait(f"page.steps === 1192 && {READY}")
    page.same([page.tab.value("document.getElementById('example').value"),
               page.tab.value("page.step")], ["round", 1050], "a link")
    page.choose(7)
    page.tab.value("document.getElementById('link').click()")
    page.same(page.tab.value("location.hash"), "#example=round&steps=1192&step=7",
              "the address behind a click on the link")


def longest(page: PageTrial) -> None:
    """The most steps within three times what `play` takes, and a play that is stopped."""
    page.pick("letter-a")
    example = Example("letter-a")
    native, shown = [], []
    for _ in range(2):
        start = time.monotonic()
        page.trial.expect(0, "", *example.words("play", steps=MOST_STEPS))
        native.append(time.monotonic() - start)
        shown.append(page.tab.value(
            "(async () => { const start = performance.now(); await page.device.play(page.files(), "
            f"{MOST_STEPS}); return (performance.now() - start) / 1000; }})()"))
    page.same(min(shown) <= 3 * min(native), True, f"{MOST_STEPS} steps: {shown} s beside {native}")
    page.tab.value(f"document.getElementById('steps').value = {MOST_STEPS}; page.play(); 0")
    page.tab.wait("!document.getElementById('stop').disabled")
    page.tab.value("document.getElementById('stop').click()")
    page.ready()
    page.same(page.text("said"), "Stopped", "a play that is stopped")
    page.pick("letter-a")
    page.same(page.tab.value("page.printed"), example.text.decode(), "a play behind a stopped one")


def reachable(page: PageTrial) -> None:
    """The keyboard alone reaches the views and all that is in one; each control has a name."""
    page.tab.value("document.activeElement.blur(); document.getElementById('tab-run').focus()")
    for name in ("files", "judge", "about", "run"):
        page.tab.key("ArrowRight")
        page.same(page.tab.value(f"document.getElementById('{name}').hidden"), False,
                  f"the view {name} by a key")
    reached = []
    for _ in range(60):
        page.tab.key("Tab")
        reached.append(page.tab.value("document.activeElement.id"))
    wanted = ["example", "steps", "go", "slider", "step", "before", "after", "nearer", "farther",
              "all", "link", "type", "pace", "save-script", "place", "lower", "higher", "printed"]
    page.same([name for name in wanted if name not in reached], [], "what keys do not reach")
    nodes = page.tab.call("Accessibility.getFullAXTree")["nodes"]
    nameless = [node["role"]["value"] for node in nodes if not node.get("ignored")
                and node["role"]["value"] in NAMED and not node.get("name", {}).get("value")]
    page.same(nameless, [], "controls without a name")


def luminance(colour: str) -> float:
    """That of WCAG 2, of a colour in six digits."""
    parts = (int(colour[at:at + 2], 16) / 255 for at in (1, 3, 5))
    return sum(part * (each / 12.92 if each <= 0.03928 else ((each + 0.055) / 1.055) ** 2.4)
               for part, each in zip((0.2126, 0.7152, 0.0722), parts))


def contrasts(page: PageTrial) -> None:
    """Texts and signs have the contrasts that WCAG 2 asks for in AA."""
    style = page_file.source("page.css")
    for scheme in re.findall(r":root \{(.*?)\}", style, re.S):
        colours = dict(re.findall(r"--([\w-]+): (#\w{6});", scheme))
        for least, names in CONTRASTS.items():
            for pair in names.split():
                dark, light = sorted(luminance(colours[name]) for name in pair.split("/"))
                page.same((light + 0.05) / (dark + 0.05) >= least, True, f"the contrast of {pair}")


def shades(picture: bytes) -> int:
    """How many values the bytes of a PNG have, as its lines are kept."""
    at, held = 8, b""
    while at < len(picture):
        length, kind = struct.unpack(">I4s", picture[at:at + 8])
        held += picture[at + 8:at + 8 + length] if kind == b"IDAT" else b""
        at += length + 12
    return len({*zlib.decompress(held)})


def seen(page: PageTrial) -> None:
    """The window is not blank, on a narrow screen and a wide one, in light and in dark; nothing
    stands beside it, and the strip has the colour of EXEC where that is 1.
    """
    page.pick("round")
    page.tab.value("scrollTo(0, 0)")
    for scheme in ("dark", "light"):
        for width in (360, 1400):
            page.tab.show(width, scheme)
            page.tab.value("new Promise((resolve) => requestAnimationFrame(() => "
                           "requestAnimationFrame(resolve)))")
            what = f"{width} points of width, {scheme}"
            page.same(shades(page.tab.picture()) > 60, True, f"{what}: a picture that is not blank")
            page.same(page.tab.value("document.documentElement.scrollWidth"), width, what)
            page.same(page.tab.value("page.strip.width - page.strip.canvas.clientWidth"), 0,
                      f"{what}: the strip")
            shown = page.tab.value("(() => { const it = document.getElementById('strip');"
                                   "const at = it.width * 0.95; return [...it.getContext('2d')"
                                   ".getImageData(at, 10, 1, 1).data].slice(0, 3); })()")
            page.same(shown, page.tab.value("channels('exec')"), f"{what}: EXEC in the strip")


def kept_in(page: PageTrial) -> None:
    """The page asks for nothing, and what would is refused by its content policy."""
    refused = page.tab.value(
        "new Promise((resolve) => { document.onsecuritypolicyviolation = (event) => "
        "resolve(event.effectiveDirective); fetch('http://127.0.0.1:9/').catch(() => 0);"
        "setTimeout(() => resolve('nothing'), 2000); })")
    page.same(refused, "connect-src", "what refuses a request")
    urls, told = page.tab.asked()
    page.same([url for url in urls if not re.match("(file|blob):", url)], [], "requests")
    page.same([each for each in told if "connect-src" not in json.dumps(each)
               and "127.0.0.1" not in json.dumps(each)], [], "faults in the console")


def pictured(trial: Trial, files: SampleFiles, chromium: browser.Browser) -> None:
    """The page of one run shows it without a module, at each step."""
    example = Example("round")
    words = example.words("round")
    given = ["picture", *words[1:4], words[5], words[4]]
    answer = trial.call(trial.program, *given, command=["python3", run_picture.__file__])
    name = files.add("run.html", answer.output)
    page = PageTrial(trial, files, chromium.tab(f"file://{name}"))
    page.ready()
    page.same(page.tab.value("page.printed"), trial.call(*words).output.decode(), "the picture")
    samples = wave_model.samples(trial.expect(0, "", *example.words("wave")))
    page.choose(1055)
    shown = page.tab.value("document.querySelectorAll('#registers td')[1].textContent")
    page.same(shown[:7], "sp %04x" % samples[1055]["sp"], "a step of the picture")
    page.same(page.text("step-said").endswith(": mov @r1+,r0"), True, "its instruction")
    page.same(page.tab.asked(), ([f"file://{name}"], []), "what the picture asks for")
    for wrong, status in ((given[:4], 2), ([*given[:4], "0"], 2),
                          (["picture", files["none"], *given[2:]], 3),
                          ([*given[:1], *given[2:3] * 2, *given[3:]], 8)):
        refused = trial.call(trial.program, *wrong, command=["python3", run_picture.__file__])
        page.same((refused.status, refused.output), (status, b""), f"{wrong}")


def busyness(trial: Trial) -> float:
    """How many times its processor's time a run takes now, as others want the processors too."""
    start, before = time.monotonic(), os.times()
    trial.expect(0, "", *Example("letter-a").words("play", steps=MOST_STEPS))
    past, after = time.monotonic() - start, os.times()
    return max(1, past / (after.children_user - before.children_user))


def without_module(trial: Trial, name: str, chromium: browser.Browser) -> None:
    """A browser that takes no WebAssembly is told so, once."""
    with open(name, encoding="utf-8") as file:
        text = file.read()
    other = f"{os.path.dirname(name)}/refused.html"
    with open(other, "w", encoding="utf-8") as file:
        file.write(text.replace(" 'wasm-unsafe-eval'", "", 1))
    tab = chromium.tab(f"file://{other}")
    tab.wait("window.page && !page.busy && document.getElementById('fault').textContent")
    said = tab.value("document.getElementById('fault').textContent")
    trial.tries += 1
    if "WebAssembly" not in said:
        trial.fault(f"without WebAssembly the page says {said!r}")


TRIALS = (examples, works, steps, faults, mistakes, pointer, typed, typed_fast, dropped, judged,
          links, longest, seen, reachable, contrasts, kept_in)


def page(trial: Trial, files: SampleFiles) -> None:
    """All of them, over a page that is made anew of the module that tools/make-page made."""
    missing = [] if browser.found() else ["chromium"]
    missing += [] if os.path.exists(MODULE) else ["module of tools/make-page"]
    if missing:
        print(f"{trial.name}: page is left out: no {', '.join(missing)}")
        return
    name = f"{files.folder}/page.html"
    trial.expect(0, "", MODULE, name, command=[f"{ROOT}/tools/page_file.py"])
    with browser.Browser(trial.seconds) as chromium:
        times = []
        for _ in range(3):
            shown = PageTrial(trial, files, chromium.tab(f"file://{name}"))
            shown.ready()
            times.append(shown.tab.value("performance.getEntriesByName('shown')[0].startTime"))
        shown.same(min(times) < MOST_TIME * busyness(trial), True,
                   f"the first picture, after {times} ms")
        shown.same(os.path.getsize(name) < MOST_BYTES, True, "the size of the page")
        for each in TRIALS:
            try:
                each(shown)
            except browser.Failed as failed:
                trial.fault(f"{each.__name__}: {failed}")
        pictured(trial, files, chromium)
        without_module(trial, name, chromium)
