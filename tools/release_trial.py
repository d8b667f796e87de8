"""Trials of tools/release, in two copies of the repository."""
import os
import shutil
import subprocess
import tarfile
import tempfile

from reference import VERSION
from sample_files import read, write
from script_trial import source_sum
from trial import ROOT

NAME = f"foldgneiss-{VERSION}-x86_64"
ARCHIVE, PACKAGE = f"{NAME}.tar.gz", f"foldgneiss_{VERSION}_amd64.deb"
TOOLS = ("git", "dpkg-deb")
MADE = "crates/device_library/out"
PARTS = ("libfoldgneiss_device.so", "device.wasm", "device.html")


def checkout(trial, folder):
    """A copy of what Git knows of the repository, in which the programs are said to be proved."""
    listed = subprocess.run(["git", "-C", ROOT, "ls-files", "-z"], check=True,
                            stdout=subprocess.PIPE).stdout.decode()
    for name in filter(None, listed.split("\0")):
        os.makedirs(os.path.dirname(f"{folder}/{name}"), exist_ok=True)
        shutil.copy(f"{ROOT}/{name}", f"{folder}/{name}")
    shutil.copytree(f"{ROOT}/.git", f"{folder}/.git")
    origin = f"proved with rattle-kit-0 logic 0123\nsources {source_sum(folder)}\n"
    for crate, program in trial.programs.all.items():
        os.makedirs(f"{folder}/crates/{crate}/out")
        made = shutil.copy(program, f"{folder}/crates/{crate}/out/{crate}")
        write(f"{made}.origin", origin.encode())
    os.makedirs(f"{folder}/{MADE}")
    for name in PARTS:
        write(f"{folder}/{MADE}/{name}", name.encode())
    write(f"{folder}/{MADE}/device_library.origin", origin.encode())
    return origin


def released(trial, folder, to, **options):
    """The files of a release of this copy by their names."""
    trial.expect(0, "", to, command=[f"{folder}/tools/release"], cwd=folder, **options)
    return {name: read(f"{to}/{name}") for name in sorted(os.listdir(to))}


def same_bytes(trial, folders):
    """Two folders and two runs give the same bytes, and another moment gives others; the first."""
    one, other = folders
    os.utime(f"{other}/README.md", (0, 0))
    moment = trial.expect(0, "", "log", "-1", "--format=%ct", command=["git", "-C", one]).decode()
    releases = [
        released(trial, one, f"{one}-1", umask=0o77, env={**os.environ, "TZ": "Asia/Tokyo"}),
        released(trial, one, f"{one}-2"),
        released(trial, other, f"{other}-1",
                 env={**os.environ, "SOURCE_DATE_EPOCH": moment.strip()})]
    if any(release != releases[0] for release in releases):
        trial.fault("release: other bytes in another folder or run")
    if sorted(releases[0]) != sorted((ARCHIVE, PACKAGE, "SHA256SUMS")):
        trial.fault(f"release: {sorted(releases[0])}")
    later = released(trial, one, f"{one}-3", env={**os.environ, "SOURCE_DATE_EPOCH": "1"})
    if any(later[name] == content for name, content in releases[0].items()):
        trial.fault("release: the same bytes of another moment")


def works(trial, files, root, command, origin):
    """What a release has runs from its own folder, without Git and sources."""
    def prints(text, *words):
        trial.prints(text, *words, command=[command])
    prints(f"foldgneiss {VERSION}\n{origin}".encode(), "--version")
    prints(f"{root}\n".encode(), "folder")
    prints(files.texts["listing"], "list", files.image)
    if b"tx 4 41" not in trial.expect(0, "", "picture", *files.letter, "5", command=[command]):
        trial.fault("release: no run in its picture")
    call = files.each_desk_call()[0]
    trial.prints(call.text, *call.words, input=call.input, command=[command])
    trial.expect(127, "foldgneiss: a release has no sources to build: that needs the repository "
                      "and the Rattle kit, see README.md", "build", command=[command])
    trial.expect(0, "", "--quiet", "-c", "SHA256SUMS", command=["sha256sum"], cwd=root)
    sums, proved = read(f"{root}/SHA256SUMS").decode(), read(f"{root}/PROVED").decode()
    for name in PARTS:
        if read(f"{root}/{MADE}/{name}") != name.encode() or f"  {MADE}/{name}\n" not in sums or (
                f"  {MADE}/{name}\n" not in proved):
            trial.fault(f"release: {name} is not there, or has no sum")
    trial.expect(0, "", f"{root}/examples/desk/carry.sh", command=["bash"])


def refusals(trial, folder):
    """What is of several sources or versions, or not proved, is no release."""
    tool = [f"{folder}/tools/release"]
    out = f"{folder}/crates/desk_main/out/desk_main"
    origin = read(f"{out}.origin")
    other = origin.replace(b"sources ", b"sources 0")
    write(f"{out}.origin", other)
    trial.expect(1, "release: desk_main is of other sources than the program of the device",
                 f"{folder}-refused", command=tool)
    write(f"{out}.origin", origin)
    write(f"{folder}/{MADE}/device_library.origin", other)
    trial.expect(1, "release: the library and the page are not made of these sources: "
                    "tools/make-page", f"{folder}-refused", command=tool)
    write(f"{folder}/{MADE}/device_library.origin", origin)
    os.remove(f"{folder}/{MADE}/device.html")
    trial.expect(1, f"release: there is no {MADE}/device.html", f"{folder}-refused", command=tool)
    write(f"{folder}/{MADE}/device.html", b"device.html")
    changelog = read(f"{folder}/CHANGELOG.md").replace(b"## ", b"## 0.9.0, 2027-01-01\n\n## ", 1)
    write(f"{folder}/CHANGELOG.md", changelog)
    trial.expect(1, "release: CHANGELOG.md begins with 0.9.0, and tools/reference.py has "
                    f"{VERSION}", f"{folder}-refused", command=tool)
    write(f"{folder}/CHANGELOG.md", read(f"{ROOT}/CHANGELOG.md"))
    out = f"{folder}/crates/device_main/out"
    os.rename(f"{out}/device_main", f"{out}/unproved")
    write(f"{out}/unproved.origin", origin.replace(b"proved", b"compiled without a proof, quick,"))
    answer = trial.call(f"{folder}-refused", command=tool)
    if answer.status != 1 or "no proved program is up to date: ./foldgneiss build" not in (
            answer.line.split("\n")[-1]):
        trial.fault(f"release: {answer} of a program without a proof")
    if os.path.exists(f"{folder}-refused"):
        trial.fault("release: a folder of a release that is refused")


def is_left_out(trial):
    """Whether no release can be made here; a line says so."""
    missing = [tool for tool in TOOLS if not shutil.which(tool)]
    if not os.path.isdir(f"{ROOT}/.git"):
        missing.append("checkout of Git")
    if missing:
        print(f"{trial.name}: {trial.part} is not tried: no {', '.join(missing)}")
    return missing


def release(trial, files):
    if is_left_out(trial):
        return
    with tempfile.TemporaryDirectory() as holder:
        holder = os.path.realpath(holder)
        folders = [f"{holder}/one", f"{holder}/another place"]
        origins = [checkout(trial, folder) for folder in folders]
        same_bytes(trial, folders)
        package = f"{holder}/one-1/{PACKAGE}"
        with tarfile.open(f"{holder}/one-1/{ARCHIVE}") as archive:
            archive.extractall(f"{holder}/archive")
        root = f"{holder}/archive/{NAME}"
        works(trial, files, root, f"{root}/foldgneiss", origins[0])
        trial.expect(0, "", "-x", package, f"{holder}/package", command=["dpkg-deb"])
        root = f"{holder}/package/usr/lib/foldgneiss"
        works(trial, files, root, f"{holder}/package/usr/bin/foldgneiss", origins[0])
        if shutil.which("lintian"):
            answer = trial.call("--fail-on", "error", "--allow-root", package, command=["lintian"])
            if answer.status != 0:
                trial.fault(f"release: lintian says {answer.output.decode()}")
        refusals(trial, folders[0])


def fresh_debian(trial, files):
    """Both ways of README's Install in a fresh Debian, where one can be had."""
    if is_left_out(trial):
        return
    with tempfile.TemporaryDirectory() as holder:
        checkout(trial, f"{holder}/checkout")
        released(trial, f"{holder}/checkout", f"{holder}/release")
        answer = trial.call(f"{holder}/release", command=[f"{ROOT}/tools/try-release"],
                            seconds=1800)
        if answer.status == 3:
            print(f"{trial.name}: {trial.part} is not tried: {answer.output.decode().strip()}")
        elif answer.status != 0:
            trial.fault(answer.line)
