"""What a run has to give in a scene: by the plain program of tests/reference, the tables of reasons, and the manual page."""

import functools
import os
import re
from collections import namedtuple
from xml.etree import ElementTree

from commands import answer
from explain_tests import preparing_reasons, reasons
from layout import LARGE, STANDARD
from table import COMMANDS, FILES, KEYS, NAMES, Version

# Status, output, error output without commands to try and lines of progress, the names in these lines, and the files that are
# written. The markers of `diff` are listed in place of a file's bytes.
Result = namedtuple("Result", "status out err shown files")
STANDARD_INPUT = "standard input"
MISSING = "  = No such file or directory (os error 2)\n"
PROGRESS = re.compile(r"(.*): \d+( of \d+)? bytes read(, \d+ %)?(, sorting)?\n")
TO_TRY = re.compile("  = try: .*\n")
REFUSED = re.compile(r"refused (\d+) at \d+\n$")
FLAGS = re.compile(r"--[a-z0-9-]+")
KEPT = re.compile(rb"([0-9a-f]{64})  (.+)", re.DOTALL)


@functools.lru_cache(None)
def answered(command, files, is_large):
    """Status, output and error output of the plain program."""
    return answer(command, files, 2, LARGE if is_large else STANDARD)


@functools.lru_cache(None)
def reason(number):
    """The lines below a refusal: the meaning of its reason, and what to do about it. A command to try may follow."""
    name, meaning, remedy = next(row[1:] for row in (*reasons(), *preparing_reasons()) if row[0] == number)
    return f"  = {name}: {meaning}\n  = {remedy}\n"


def shown(name):
    """A name in a message, in one line."""
    return name.replace("\\", "\\\\").replace("\n", "\\n") if "\n" in name else name


def markers_of(lines, most):
    """The markers of the lines of a difference: a description, and what is removed or added, in which cell, and how often."""
    items, name = [], None
    for line in lines:
        sign, second, third = line.split()[:3]
        if sign == "@":
            name = third
        else:
            items.append((f"{'removed' if sign == '-' else 'added'}.{third}", name, int(second)))
    more = "" if most is None or most >= len(items) else f" (the first {most} of {len(items)} markers)"
    return "The difference of A and B" + more, *items[:most]


def markers_in(text):
    """The same of a report database, or its bytes where it is none."""
    try:
        root = ElementTree.fromstring(text)
        items = [[item.findtext(name) for name in ("category", "cell", "multiplicity")] for item in root.find("items")]
        return root.findtext("description"), *((kind, cell, int(count)) for kind, cell, count in items)
    except (ElementTree.ParseError, TypeError, ValueError):
        return text


class Run:
    """A run of a request in a scene, and what it has given so far."""

    def __init__(self, request, scene, kind):
        self.request, self.scene, self.given = request, scene, scene.stdin[kind]
        self.is_large, self.explains = "large" in request.flags, "explain" in request.flags
        self.status, self.out, self.err, self.shown, self.files = 0, b"", "", [], {}

    def result(self):
        names = tuple(self.shown) if "progress" in self.request.flags else ()
        return Result(self.status, self.out, self.err, names, tuple(sorted(self.files.items())))

    def ends(self, status):
        """Of many files one that is refused decides, then one that differs."""
        self.status = 1 if 1 in (self.status, status) else max(self.status, status)

    def writes(self, name, data):
        name = os.path.normpath(name)
        if self.scene.files.get(name) != data:
            self.files[name] = data

    def says(self, line, explained=""):
        self.err += line + (explained if self.explains else "")

    def content(self, name):
        """What a file or standard input gives, or None where it can't be opened, which is said."""
        data = self.given if name is None else self.scene.files.get(os.path.normpath(name))
        if data is None:
            self.says(f"{shown(name)}: cannot be opened\n", MISSING)
            self.ends(1)
        return data

    def layout(self, name):
        """A file's name in messages and its bytes, or None; what is opened is shown."""
        data = self.content(name)
        if data is None:
            return None
        in_messages = STANDARD_INPUT if name is None else shown(name)
        if in_messages not in self.shown:
            self.shown.append(in_messages)
        return in_messages, data

    def two_layouts(self):
        """Both files of a request, or None where one can't be opened."""
        first = self.layout(self.request.inputs[0])
        second = self.layout(self.request.inputs[1]) if first else None
        return (first, second) if second else None

    def took(self, status, out, err):
        """The output of the plain program, or None where it refuses. What it says is said."""
        refused = REFUSED.search(err.decode())
        self.says(err.decode(), reason(refused[1]) if refused else "")
        self.ends(status)
        return out if out or not status else None

    def answer(self, command, *files):
        """The same of a command of `oascanon`."""
        return self.took(*answered(command, files, self.is_large))


def of_one(run):
    """`canon`, `show`, `keys`, `info` or `rekey`."""
    request = run.request
    if "no-clobber" in request.flags and os.path.normpath(request.output) in run.scene.files:
        run.says(f"{request.output}: exists, and is not replaced\n")
        run.ends(1)
        return
    file = run.layout(request.inputs[0])
    out = run.answer("info --json" if "json" in request.flags else request.command, file) if file else None
    if out is not None and request.output is not None:
        run.writes(request.output, out)
    else:
        run.out += out or b""


def chosen(request):
    """`same`, or `diff` with the cells and the layers that it compares, and a cell that no file has where it is to compare
    none."""
    cells = sorted(request.cells or {"NONE"}) if request.cells is not None else ()
    layers = sorted("/".join(map(str, layer)) for layer in request.layers or ())
    return " ".join([request.command, *(f"--cell {name}" for name in cells), *(f"--layer {layer}" for layer in layers)])


def of_two(run):
    """`same` or `diff`."""
    request, compared = run.request, chosen(run.request)
    files = run.two_layouts()
    if files is None:
        return
    flags = "".join(f" --{name}" for name in ("brief", "json") if name in request.flags)
    options = (("unit", request.unit), ("limit", request.limit))
    valued = "".join(f" --{name} {value}" for name, value in options if value is not None)
    out = run.answer(compared + flags + valued, *files)
    if out is not None and request.markers is not None:
        _, lines, _ = answered(compared, files, run.is_large)
        run.writes(request.markers, markers_of(lines.decode().splitlines(), request.most))
    run.out += out or b""


def names_of(run):
    """The files of a request by their names, or those that a list names."""
    if run.request.reads == FILES:
        return run.request.inputs
    data = run.content(run.request.inputs[0])
    return map(os.fsdecode, items_of_list(data or b"", b"\0"))


def of_many(run):
    """`check` or `key` of files by name."""
    flags, command = run.request.flags, run.request.command
    has_names = "names" in flags or run.request.reads == NAMES
    end = b"\0" if "zero" in flags else b"\n"
    for name in names_of(run):
        file = run.layout(name)
        out = run.answer(command, file) if file else None
        if out is not None:
            label = b"-" if name is None else os.fsencode(name)
            line = (label + b": " + out[:-1] if command == "check" else out[:-1] + b"  " + label) if has_names else out[:-1]
            run.out += line + end


def items_of_list(data, end):
    """The items of a list, each of which has this end, except perhaps the last."""
    items = data.split(end)
    return items if items[-1] else items[:-1]


def of_keys(run):
    """Whether saved keys are those of their files."""
    name, = run.request.inputs
    data, end = run.content(name), b"\0" if "zero" in run.request.flags else b"\n"
    for number, line in enumerate(items_of_list(data or b"", end), 1):
        kept = KEPT.fullmatch(line)
        if kept is None:
            run.says(f"{name or STANDARD_INPUT}: line {number} is no key and name\n")
            run.ends(1)
        elif file := run.layout(os.fsdecode(kept[2])):
            of_key(run, kept, file, end)


def of_key(run, kept, file, end):
    """Whether a saved key is that of its file."""
    out = run.answer("key", file)
    if out is None:
        return
    is_kept = out[:-1] == kept[1]
    run.ends(0 if is_kept else 3)
    if not is_kept or "quiet" not in run.request.flags:
        run.out += kept[2] + (b": OK" if is_kept else b": changed") + end


@functools.lru_cache(None)
def explanation(number):
    """What `explain` prints: the rows of the pages, each in three lines."""
    rows = [row for row in (*reasons(), *preparing_reasons()) if number is None or number in row[:2]]
    return "".join(f"{number} {name}\n  {meaning}\n  {remedy}\n" for number, name, meaning, remedy in rows).encode()


def of_reasons(run):
    run.out = explanation(run.request.number)


@functools.lru_cache(None)
def result_of(request, scene, kind):
    """What a request has to give in a scene, where standard input is of this kind."""
    run = Run(request, scene, kind)
    if request.command == "explain":
        of_reasons(run)
    elif request.command in ("same", "diff"):
        of_two(run)
    elif request.command not in ("check", "key"):
        of_one(run)
    elif request.reads == KEYS:
        of_keys(run)
    else:
        of_many(run)
    return run.result()


def is_help(text, usage, command):
    """Whether a text is the help with this usage, and names the flags and options of the command and no others."""
    told = {f"--{name}" for name in (*command.flags, *command.options, *command.tells)}
    return f"Usage: {usage} " in text and set(FLAGS.findall(text.split("Example")[0])) == told


def is_version(text, name):
    return text.startswith(f"{name} ") and text.count("\n") == 1


def is_text_of(wanted, text):
    """Whether this is the help of a command or of the program, or the version."""
    if isinstance(wanted, Version):
        return is_version(text, "oascanon")
    if wanted.command:
        return is_help(text, f"oascanon {wanted.command}", COMMANDS[wanted.command])
    return "Usage: oascanon <" in text and all(f"\n  {name} " in text for name in COMMANDS)
