"""Faults that a user can mend, told in one line, and the packages that a tool needs."""
import argparse
import importlib
import importlib.util
import os
import subprocess
import sys

BAD_WORDS = 2

# the Python for which Debian's packages are installed, whichever comes first in PATH
SYSTEM_PYTHON = "/usr/bin/python3"

# the name at the Python Package Index and Debian's package of each module
PACKAGES = {"fontTools": ("fonttools", "python3-fonttools"), "pikepdf": ("pikepdf", "python3-pikepdf")}


class Fault(Exception):
    """Something that the user has to mend; its text is one line."""


def need(module):
    """The module of that name; the fault of a missing one says how to install it."""
    try:
        return importlib.import_module(module)
    except ImportError:
        package, debian = PACKAGES[module.split(".")[0]]
        raise Fault(
            f"the Python package {package} is missing in {sys.executable}: "
            f"`pip install {package}`, or on Debian `apt-get install {debian}`"
        ) from None


def go_on_where_packages_are(modules):
    """Starts the tool again in the system's Python where this one lacks a module of these and that one has them all."""
    here, system = os.path.realpath(sys.executable), os.path.realpath(SYSTEM_PYTHON)
    if here == system or not os.access(system, os.X_OK) or all(importlib.util.find_spec(name) for name in modules):
        return
    asked = subprocess.run([SYSTEM_PYTHON, "-c", f"import {', '.join(modules)}"], capture_output=True, check=False)
    if asked.returncode == 0:
        os.execv(SYSTEM_PYTHON, [SYSTEM_PYTHON, *sys.argv])


def read_text(path):
    """The text of a UTF-8 file, with its line ends as they are and without a leading U+FEFF."""
    try:
        with open(path, "rb") as file:
            data = file.read()
    except OSError as why:
        raise Fault(f"{path}: {why.strerror or why}") from None
    try:
        return data.decode("utf-8").removeprefix("\ufeff")
    except UnicodeDecodeError as why:
        raise Fault(f"{path}: not UTF-8 at byte {why.start}") from None


def write_bytes(path, data):
    """Writes a file beside its place and then puts it there, so that no half file is left."""
    beside = f"{path}.part"
    try:
        with open(beside, "wb") as file:
            file.write(data)
        os.replace(beside, path)
    except OSError as why:
        raise Fault(f"{path}: {why.strerror or why}") from None


class Words(argparse.ArgumentParser):
    """Reads the words of a tool whose help is the text at the head of its file; refused words are a fault of one
    line."""

    def __init__(self, help_text):
        super().__init__(add_help=False)
        self.help_text = help_text
        self.add_argument("-h", "--help", action="help")

    def format_help(self):
        return self.help_text + "\n"

    def error(self, message):
        usage = " ".join(self.help_text.split("\n\n")[1].split())
        raise Fault(f"{message}; usage: {usage}")


def run(name, main, modules=()):
    """Ends the process with the status of `main`, which takes the words and needs modules of these names; a fault is
    one line and status 2."""
    try:
        go_on_where_packages_are(modules)
        status = main(sys.argv[1:])
        sys.stdout.flush()
    except Fault as fault:
        print(f"{name}: {fault}", file=sys.stderr)
        status = BAD_WORDS
    except BrokenPipeError:
        os.dup2(os.open(os.devnull, os.O_WRONLY), sys.stdout.fileno())
        status = 1
    except KeyboardInterrupt:
        status = 130
    sys.exit(status)
