"""Trials of the package in python/: its calls beside the program's own text, its page, ELF files
beside LLVM's reading of them, and that pip installs it without a network.
"""
import ast
import contextlib
import glob
import importlib
import os
import random
import re
import subprocess
import sys
import tempfile

import attestation_model
import firmware_trial
import reference  # (it has the package on the path)
from sample_files import EXAMPLES, Example, read, write
from trial import ROOT

import foldgneiss

FOLDER = f"{ROOT}/python"
PAGE = f"{ROOT}/docs/python.md"
OLDEST = (3, 8)
USES = """
import os, foldgneiss
assert os.path.dirname(foldgneiss.__file__) == os.path.join({place!r}, "foldgneiss")
print(foldgneiss.play({image!r}, b"", {key!r}, 5).sent.hex(), foldgneiss.__version__)
"""


@contextlib.contextmanager
def calling(program):
    """The package calls this program."""
    before = os.environ.get("FOLDGNEISS")
    os.environ["FOLDGNEISS"] = program
    try:
        yield
    finally:
        del os.environ["FOLDGNEISS"]
        if before is not None:
            os.environ["FOLDGNEISS"] = before


def same(trial, what, found, wanted):
    trial.tries += 1
    if found != wanted:
        trial.fault(f"{what}: {found!r:.200} in place of {wanted!r:.200}")


def shown(line):
    """A line as it is printed, of a value that was read."""
    if isinstance(line, foldgneiss.Report):
        return str(line)
    forms = {foldgneiss.SentByte: "tx {} {:02x}", foldgneiss.Reset: "reset {} {}",
             foldgneiss.Denial: "denied {} {}", foldgneiss.Verdict: "verdict {} {}",
             foldgneiss.End: "end {} pc {:04x} exec {}"}
    return forms[type(line)].format(*line)


def runs(trial):
    """What a run's lines say is its text, and files may be paths, bytes or values."""
    for name in ("letter-a", "echo", "attest", "sensor", "meter", "pump/forged", "round"):
        example = Example(name)
        image, script, key = (example.file(kind) for kind in ("image", "script", "key"))
        events = foldgneiss.read_script(read(script))
        wanted = trial.call(*example.words("play")).output
        for files in ((image, script, key), (read(image), read(script), read(key)),
                      (image, events, key)):
            run = foldgneiss.play(*files, int(example.steps))
            text = "".join(f"{shown(line)}\n" for line in run.lines).encode()
            same(trial, name, (run.text, text), (wanted, wanted))
        same(trial, f"the events of {name}", foldgneiss.read_script(
            foldgneiss.script_text(events)), events)
    same(trial, "sent", foldgneiss.play(*map(Example("echo").file, ("image", "script", "key")),
                                        150).sent, b"AZHI")
    example = Example("resets/vector")
    run = foldgneiss.play(*map(example.file, ("image", "script", "key")), int(example.steps))
    trace = foldgneiss.trace(*map(example.file, ("image", "script", "key")), run.end.steps)
    same(trial, "resets", [line.rule for line in trace if line.rule != "-"],
         [reset.rule for reset in run.resets])


def judged(trial, files):
    """Requests and verdicts, of the models; a request that has no report is told."""
    example = Example("round")
    image, script, key, policy = map(example.file, ("image", "script", "key", "policy"))
    run = foldgneiss.round(image, script, key, policy, int(example.steps))
    same(trial, "round", (run.verdicts, run.is_accepted, run.unanswered), (["accept"], True, None))
    model = attestation_model.token(example.value("key"), bytes(range(32)), 7)
    request = foldgneiss.request(key, bytes(range(32)), 7)
    same(trial, "request", (request.token, request.message[32:36]), (model, b"\7\0\0\0"))
    asked = example.value("policy")
    more = asked._replace(requests=[*asked.requests, (bytes(32), 9)])
    told = foldgneiss.verify(image, more, key, run.reports)
    same(trial, "unanswered", (told.verdicts, told.is_accepted, told.unanswered),
         (["accept"], False, len(more.requests)))
    forged = [report._replace(mac=bytes(32)) for report in run.reports]
    told = foldgneiss.verify(image, policy, key, forged)
    same(trial, "forged", (told.verdicts, told.is_accepted), (["mac-differs"], False))
    for status, words in ((9, (image, b"at 0 tx 00\n", key, 5)), (3, ("none", script, key, 5)),
                          (2, (image, script, key, 0))):
        trial.tries += 1
        try:
            foldgneiss.play(*words)
        except (foldgneiss.Failure, FileNotFoundError) as failure:
            same(trial, words, getattr(failure, "status", 3), status)
        else:
            trial.fault(f"{words}: no failure")


def program_of_page(word):
    """The one of the page that has this word."""
    blocks = re.findall("(?:^    .*\n|^\n+(?=    ))+", read(PAGE).decode(), re.M)
    code, = [re.sub("^    ", "", block, flags=re.M).lstrip() for block in blocks
             if "import foldgneiss" in block and word in block]
    return code


def runs_program(trial, code, folder):
    """A program runs in a folder, and of its tests those fail of which the page says so."""
    tests = re.findall(r"^def (test_\w+)\(", code, re.M)
    calls = "".join(f"\ntry: {name}()\nexcept AssertionError: print('{name}')" for name in tests)
    fails = [name for name in tests if f"`{name}` fails" in read(PAGE).decode()]
    trial.prints("".join(f"{name}\n" for name in fails).encode(), "-c", code + calls,
                 command=[sys.executable, "-B"], cwd=folder,
                 env={**os.environ, "PYTHONPATH": FOLDER})


def test_of_meter(trial, folder):
    """The example's test, which the page has too."""
    example = Example("meter")
    code = read(f"{example.folder}/test_meter.py").decode()
    same(trial, "the test of the page", program_of_page("test_"), code)
    for kind, name in (("image", "image.hex"), ("key", "key.txt")):
        write(f"{folder}/{name}", read(example.file(kind)))
    runs_program(trial, code, folder)


def elf_files(trial):
    """The image of an ELF is the one that LLVM makes of it, damage is told as such, and a firmware
    is played as its ELF.
    """
    if not firmware_trial.is_compiler_there(trial):
        return
    rng, example = random.Random(1), Example("sensor")
    with firmware_trial.folder_of({"sensor.c": read(f"{EXAMPLES}/sensor/sensor.c")}) as folder:
        image = foldgneiss.read_image(firmware_trial.made_image(trial, folder))
        path = f"{folder}/build/firmware.elf"
        content = read(path)
        elf = foldgneiss.Elf(content)
        same(trial, "the image of an ELF", elf.image, image)
        same(trial, "the vector of reset", image[0xFFFE] + 256 * image[0xFFFF],
             elf.place_of("start"))
        files = example.file("script"), example.file("key"), int(example.steps)
        same(trial, "a run of an ELF", foldgneiss.play(path, *files).text,
             foldgneiss.play(f"{folder}/image.hex", *files).text)
        write(f"{folder}/key.txt", read(example.file("key")))
        for word in ("foldgneiss.Policy(", "foldgneiss.Device("):
            runs_program(trial, program_of_page(word), folder)
    for _ in range(500):
        damaged = bytearray(content[:rng.choice((len(content), rng.randrange(len(content))))])
        for _ in range(rng.randrange(1, 9)):
            damaged[rng.randrange(min(len(damaged), 4096))] = rng.randrange(256)
        trial.tries += 1
        with contextlib.suppress(foldgneiss.ElfFault):
            foldgneiss.Elf(bytes(damaged))


def installs(trial, files, folder):
    """The wheel is the same each time, and what pip installs of it, without a network, plays."""
    sys.path.append(FOLDER)
    maker = importlib.import_module("wheel_of_package")
    wheels = []
    for name in ("one", "two"):
        os.makedirs(f"{folder}/{name}")
        wheels.append(read(f"{folder}/{name}/{maker.build_wheel(f'{folder}/{name}')}"))
    same(trial, "a wheel", wheels[0] == wheels[1], True)
    if subprocess.run([sys.executable, "-m", "pip", "--version"], capture_output=True).returncode:
        print(f"{trial.name}: pip install is not tried: there is no pip")
        return
    place = f"{folder}/installed"
    trial.call("-m", "pip", "install", "--no-index", "--disable-pip-version-check", "--quiet",
               "--target", place, FOLDER, command=[sys.executable])
    trial.prints(f"41 {reference.VERSION}\n".encode(), "-c",
                 USES.format(place=place, image=files.image, key=files.key),
                 command=[sys.executable, "-B"], cwd=folder,
                 env={**os.environ, "PYTHONPATH": place})


def syntax(trial):
    """No source of the package needs a later Python, and none needs another package."""
    own = {"foldgneiss", "typing", "argparse", "contextlib", "os", "re", "secrets", "select",
           "shutil", "string", "struct", "subprocess", "sys", "tempfile", "termios", "time", "tty"}
    for name in sorted(glob.glob(f"{FOLDER}/foldgneiss/*.py")):
        tree = ast.parse(read(name), feature_version=OLDEST)
        imported = {(node.module or "foldgneiss").split(".")[0] for node in ast.walk(tree)
                    if isinstance(node, ast.ImportFrom) and not node.level}
        imported |= {alias.name for node in ast.walk(tree) if isinstance(node, ast.Import)
                     for alias in node.names}
        same(trial, name, imported - own, set())


def program_of_all(trial, folder):
    """A program that has the commands of the device and `live`."""
    name = f"{folder}/foldgneiss"
    write(name, f"""#!/bin/sh
case $1 in
    live) exec {trial.debugger} "$@" ;;
    *) exec {trial.program} "$@" ;;
esac
""".encode())
    os.chmod(name, 0o755)
    return name


def answered(trial):
    """A device that is answered as it runs, and what `play` prints of the same."""
    echo = Example("echo")
    files = echo.file("image"), echo.file("key")
    with foldgneiss.Device(*files) as device:
        device.run(12)
        device.rx(b"hello")
        same(trial, "what is sent", device.until_sent(b"HELLO"), b"HELLO")
        heard = []
        device.when_sent(heard.append)
        device.rx(b"x")
        device.run(2000)
        same(trial, "what is heard", b"".join(heard), b"X")
        same(trial, "the key", device.memory(0x6A00, 4), b"")
        same(trial, "registers", len(device.registers()), 16)
        try:
            device.rx(b"a", 5)
            trial.fault("a byte came in a step that was made")
        except ValueError:
            pass
        run = foldgneiss.play(files[0], device.script, files[1], device.steps)
        same(trial, "the lines of a device", device.lines, run.lines[:-1])
        same(trial, "where it stands", tuple(device.standing), tuple(run.end))
    try:
        with foldgneiss.Device(files[0], "/nonexistent") as device:
            device.run(5)
        trial.fault("a device without a key ran")
    except foldgneiss.Failure as failure:
        same(trial, "a key that is not there", failure.status, 3)


def python(trial, files):
    with tempfile.TemporaryDirectory() as folder, calling(program_of_all(trial, folder)):
        runs(trial)
        answered(trial)
        judged(trial, files)
        test_of_meter(trial, folder)
        elf_files(trial)
        installs(trial, files, folder)
        syntax(trial)
