"""What compare, large, sample and nights share: where things stand, the build, the runs, and which lines of a sheet are calls."""

import glob
import hashlib
import os
import shutil
import subprocess
import sys

HERE = os.path.dirname(os.path.abspath(__file__))
ROOT = os.path.dirname(HERE)
BUILT = os.path.join(HERE, "target", "release")
PROGRAM = os.path.join(ROOT, "crates", "cuesheet", "out", "cuesheet")
LONGEST = 4096

KINDS = ["queue", "delta", "sync", "layer", "desk"]
SETUP = {"queue": b"queue", "delta": None, "sync": b"sync", "layer": b"layer", "desk": b"desk"}


def stop(why):
    print(why, file=sys.stderr)
    sys.exit(2)


def source():
    """The folder of the original files."""
    given = os.environ.get("GGRS_SRC")
    if given:
        return given
    beside = os.path.join(os.path.dirname(ROOT), "shared", "docs", "src", "src")
    if not os.path.isdir(beside):
        stop("GGRS_SRC is not set, and there is no shared/docs/src/src beside the repository.\n"
             "Set GGRS_SRC to the folder of ggrs 0.13.0 that holds input_queue.rs.")
    return beside


def test_original(folder):
    """Stops where a file of the original is not the one of ggrs 0.13.0 that is pinned in original.sha256."""
    with open(os.path.join(HERE, "original.sha256"), encoding="ascii") as pins:
        for pin in pins:
            wanted, name = pin.split()
            try:
                with open(os.path.join(folder, name), "rb") as file:
                    found = hashlib.sha256(file.read()).hexdigest()
            except OSError as why:
                stop(f"{why.filename}: {why.strerror}. Set GGRS_SRC to the folder of ggrs 0.13.0 that holds input_queue.rs.")
            if found != wanted:
                stop(f"{os.path.join(folder, name)} is not the file of ggrs 0.13.0: its sha256 is {found}, not {wanted}.")


def build():
    test_original(source())
    if shutil.which("cargo") is None:
        stop("There is no cargo on the path; the oracle is built with it.")
    if not glob.glob("/usr/share/cargo/registry/parking_lot-[0-9]*"):
        stop("parking_lot is not installed. Run oracle/setup first.")
    # from its own folder, where cargo finds the settings
    done = subprocess.run(["cargo", "build", "--release", "--offline", "--locked", "--quiet"], cwd=HERE,
                          env=dict(os.environ, GGRS_SRC=os.path.abspath(source())))
    if done.returncode != 0:
        stop("The oracle was not built.")


def generate(seed, lines, kind, way=None):
    words = [str(seed), str(lines), kind] + ([way] if way else [])
    done = subprocess.run([os.path.join(BUILT, "generate"), *words], stdout=subprocess.PIPE)
    if done.returncode != 0:
        stop(f"generate {' '.join(words)} ended with status {done.returncode}")
    return done.stdout


def run(command, sheet):
    """The status and the answer lines of a program that reads the sheet."""
    done = subprocess.run(command, input=sheet, stdout=subprocess.PIPE)
    answers = done.stdout.split(b"\n")
    if answers.pop() != b"":
        stop(f"{command[-1]} did not end its last line.")
    return done.returncode, answers


def oracle(sheet, *words):
    status, answers = run([os.path.join(BUILT, "oracle"), *words], sheet)
    if status != 0:
        stop(f"The oracle ended with status {status}.")
    return answers


def command(program):
    """How a program that answers sheets is started."""
    if not os.path.isfile(program):
        stop(f"There is no {program}." + (" ./cue proves and builds it." if program == PROGRAM else ""))
    return [os.path.abspath(program)]


def is_call(line):
    """Whether a line gets an answer."""
    if len(line) > LONGEST:
        return True
    fields = line.lstrip(b" ")
    return fields != b"" and not fields.startswith(b"#")


def name(line):
    return line.strip(b" ").split(b" ", 1)[0] if len(line) <= LONGEST else b""
