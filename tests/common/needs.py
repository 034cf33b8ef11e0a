"""What a check needs besides the program: commands and a version of Python; and how a report names what is missing."""
import functools
import shutil
import subprocess

# Where each command comes from that a machine may lack.
SOURCES = {
    "cc": "Debian package gcc",
    "chromedriver": "Debian package chromium-driver",
    "chromium": "Debian package chromium",
    "dpkg-deb": "Debian package dpkg",
    "git": "Debian package git",
    "java": "Debian package default-jdk-headless",
    "javac": "Debian package default-jdk-headless",
    "jq": "Debian package jq",
    "lintian": "Debian package lintian",
    "man": "Debian package man-db",
    "node": "Debian package nodejs",
    "python3": "Debian package python3",
    "rt": "part of the Rattle toolchain",
    "setpriv": "Debian package util-linux",
    "systemd-analyze": "Debian package systemd",
    "valgrind": "Debian package valgrind",
}


def no_command(command):
    """Returns that a command is missing, and where it comes from."""
    return f"there is no {command} ({SOURCES[command]})"


@functools.lru_cache(maxsize=None)
def python_version():
    """Returns the version of the python3 on the path, which is the one that runs the checks; None if there is none."""
    if shutil.which("python3") is None:
        return None
    asked = ["python3", "-c", "import sys; print(*sys.version_info[:2])"]
    said = subprocess.run(asked, stdout=subprocess.PIPE, universal_newlines=True, check=True).stdout
    return tuple(map(int, said.split()))


def missing(commands, python):
    """Returns a sentence for each of these commands that isn't on the path, and one if python3 is older than this version."""
    found = [no_command(it) for it in commands if shutil.which(it) is None]
    version = python_version()
    if version is None:
        return [*found, no_command("python3")]
    if version < python:
        have, want = (".".join(map(str, it)) for it in (version, python))
        found.append(f"python3 is version {have}, and {want} is needed ({SOURCES['python3']} of Debian 12 or later)")
    return found
