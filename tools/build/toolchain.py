"""The toolchain of this machine: where it is, which one it is, and how it checks and builds a crate."""
import functools
import os
import subprocess

from . import Stop
from .crates import sum_of

# How the note of an executable begins that has its build id, of 20 bytes.
BUILD_ID = b"\x04\0\0\0\x14\0\0\0\x03\0\0\0GNU\0"


@functools.lru_cache(maxsize=None)
def folder():
    """Returns the folder that `rt doc` names, which takes a while."""
    try:
        ran = subprocess.run(["rt", "doc"], stdin=subprocess.DEVNULL, stdout=subprocess.PIPE, check=True)
    except (OSError, subprocess.CalledProcessError):
        raise Stop("there is no `rt` on the path: Rattle's toolchain is needed") from None
    return os.path.dirname(ran.stdout.decode().strip())


class Toolchain:
    """The toolchain's folder, with the compiler and its libraries. Which one it is, is read again each time."""

    def __init__(self):
        self.at = folder()
        self.rattle, self.link = f"{self.at}/bin/rattle", f"{self.at}/bin/rattle-link"
        try:
            with open(f"{self.at}/KIT-ID", encoding="utf-8") as it:
                self.name, _, self.logic = it.read().strip().partition(" logic ")
        except OSError:
            raise Stop(f"`rt doc` names the folder {self.at}, which has no KIT-ID: it is no toolchain's folder") from None

    @functools.cached_property
    def identity(self):
        """Returns what decides whether a record or a library serves here: the compiler's build id and the logic that it proves
        by. A kit of another name may have the same ones."""
        return f"{build_id(self.rattle)} {self.logic}".strip()

    def library(self, name):
        """Returns the folder of one of the toolchain's libraries."""
        return f"{self.at}/rlibs/{name}.rlib"

    def arguments(self, crate, libraries):
        """Returns the arguments that name the crate and the libraries below it."""
        arguments = ["--crate-name", crate.name, "src/main.rt" if crate.is_program else "src/lib.rt"]
        for it in ["std", *crate.of_toolchain]:
            arguments += ["--extern", f"{it}={self.library(it)}"]
        for it in crate.straight:
            arguments += ["--extern", f"{it}={libraries}/{it}.rlib"]
        arguments += ["-L", f"dependency={self.at}/rlibs", "-L", f"dependency={libraries}"]
        arguments += ["--antt-project", f"{self.at}/rattle/logic/antt-project.json"]
        return [*arguments, "--links", f"{crate.name}="]

    def proving(self, jobs):
        return ["--logic-built", f"{self.at}/logic_built", "--jobs", str(jobs)]

    def compiling(self, compiler):
        return ["--toolchain", f"{self.at}/toolchain", "--backend", compiler]

    def linking(self, made, program):
        arguments = [self.link, "--target", "x86_64-unknown-linux-gnu", "--toolchain", f"{self.at}/toolchain", "-o", program, made]
        return [*arguments, f"{self.at}/c/libos_c.a", f"{self.at}/c/liblibc_c.a"]


def build_id(file):
    """Returns the build id of an executable, or its sum where it has none."""
    try:
        with open(file, "rb") as it:
            head = it.read(4096)
    except OSError as error:
        raise Stop(f"{file}: {error.strerror}") from None
    at = head.find(BUILD_ID)
    if at < 0:
        return sum_of(file)
    return head[at + len(BUILD_ID) :][:20].hex()
