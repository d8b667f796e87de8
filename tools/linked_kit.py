"""A folder of links to a Rattle kit in which some of its commands are scripts."""
import os
import shutil
from typing import Dict

FOLDERS = ("bin", "toolchain", "toolchain/bin")  # that the folder has itself


def kit_of(rt: str) -> str:
    """The folder of the kit of this rt."""
    return os.path.dirname(os.path.dirname(os.path.realpath(rt)))


def write_script(name: str, text: str) -> None:
    with open(name, "w", encoding="utf-8") as file:
        file.write(text)
    os.chmod(name, 0o755)


def linked_kit(kit: str, own: str, scripts: Dict[str, str]) -> str:
    """Makes the folder, with scripts of these texts at their places in the kit; its rt, which is a
    copy as its modules are, since they go by their own places.
    """
    for folder in ("", *FOLDERS):
        os.makedirs(os.path.join(own, folder))
        for name in os.listdir(os.path.join(kit, folder)):
            place = os.path.join(folder, name)
            if folder == "bin" and (name == "rt" or name.endswith(".py")):
                shutil.copy(f"{kit}/{place}", f"{own}/{place}")
            elif place not in FOLDERS and place not in scripts:
                os.symlink(f"{kit}/{place}", f"{own}/{place}")
    for place, text in scripts.items():
        write_script(f"{own}/{place}", text)
    return f"{own}/bin/rt"
