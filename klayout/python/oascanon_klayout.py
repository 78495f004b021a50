"""What the menu does, over the installed programs: keys, checks, comparisons and canonical files of KLayout's layouts.

The open layout is written to a file of its own in a temporary folder and never changed. The programs are found in the search path,
or by the environment variables OASCANON and OASPREP.
"""

import os
import shutil
import subprocess
import tempfile

import pya

# What KLayout's files have and a key doesn't cover.
DROPPED = "properties,layer-names"


class Failed(Exception):
    """A program that isn't there, or that refused a file. Its text is shown to the user."""


class Answer:
    """What was found, and what had to be left out to find it ("" where nothing was)."""

    def __init__(self, found, left_out):
        self.found = found
        self.left_out = left_out


def program(name):
    """Where a program is installed. Raises Failed where it isn't."""
    path = os.environ.get(name.upper()) or shutil.which(name)
    if not path:
        raise Failed(f"{name} isn't in the search path. Install oascanon, or name the program by the variable {name.upper()}.")
    return path


def ran(words, accepted=(0,)):
    """Runs a program, and returns its status, output and error output. Raises Failed at any other status."""
    done = subprocess.run(words, stdin=subprocess.DEVNULL, stdout=subprocess.PIPE, stderr=subprocess.PIPE, text=True)
    if done.returncode not in accepted:
        raise Failed(explained(done.stderr.strip()) or f"{words[0]} ended with status {done.returncode}")
    return done


def explained(line):
    """The line of a refusal, with what its reason means below it."""
    words = line.rsplit(" refused ", 1)
    number = words[1].split(" ")[0] if len(words) == 2 else ""
    if not number.isdigit() or int(number) > 34:
        return line
    told = subprocess.run([program("oascanon"), "explain", number], stdout=subprocess.PIPE, text=True)
    return f"{line}\n{told.stdout.strip()}"


def write_plain(layout, path):
    """Writes a layout without what the canonical form leaves open: no compression, no repetitions looked for, no context."""
    options = pya.SaveLayoutOptions()
    options.format = "OASIS"
    options.oasis_compression_level = 0
    options.oasis_write_cblocks = False
    options.oasis_strict_mode = False
    options.oasis_write_std_properties = 0
    options.write_context_info = False
    layout.write(path, options)


def prepare(source, target):
    """Writes the canonical file of a file as a tool wrote it, and returns the line of what was left out."""
    return ran([program("oasprep"), "--drop", DROPPED, source, target]).stderr.strip().removeprefix(f"{source}: ")


def canonical(layout, folder, name="layout"):
    """Writes the canonical file of a layout into a folder. Returns its path and what was left out."""
    plain, target = os.path.join(folder, f"{name}.plain.oas"), os.path.join(folder, f"{name}.oas")
    write_plain(layout, plain)
    return target, prepare(plain, target)


def key(layout):
    """The key of a layout, 64 hex digits."""
    with tempfile.TemporaryDirectory() as folder:
        path, left_out = canonical(layout, folder)
        return Answer(ran([program("oascanon"), "key", path]).stdout.strip(), left_out)


def is_canonical(path):
    """Whether a file is its own canonical file."""
    return Answer(ran([program("oascanon"), "check", path], (0, 3)).returncode == 0, "")


def save(layout, target):
    """Writes the canonical file of a layout to `target`, which changes only on success."""
    with tempfile.TemporaryDirectory() as folder:
        path, left_out = canonical(layout, folder)
        ran([program("oascanon"), "canon", path, target])
        return Answer(target, left_out)


def compare(layout, other, markers):
    """Compares a layout with a file, and writes the markers of what differs: `removed` is what the file has more often, `added`
    what the layout has. Returns the lines of `oascanon diff --brief`; there are none where both mean the same layout."""
    with tempfile.TemporaryDirectory() as folder:
        read = pya.Layout()
        read.read(other)
        old, left_out_there = canonical(read, folder, "other")
        new, left_out_here = canonical(layout, folder)
        done = ran([program("oascanon"), "diff", "--brief", "--markers", markers, old, new], (0, 3))
        left_out = "; ".join(f"{name}: {line}" for name, line in ((other, left_out_there), ("the open layout", left_out_here)) if line)
        return Answer(done.stdout, left_out)
