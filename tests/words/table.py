"""What the words of a command line request, by the manual page and the help: a plain table, and how words are read by it.

Words are read in turn. A word that begins with `-`, other than `-` itself, names flags or an option; `--` ends these, and every
other word is a file. A flag has no value and is given once. An option has one, after `=` or as the next word, which begins with
`-` only if it is `-`. `--help` counts where it is read, if no word before it is wrong.
"""

from collections import namedtuple

from explain_tests import preparing_reasons, reasons

MANY = 1000
# More lines than there are: as many as without a limit.
NO_LIMIT = 2**64 - 1
# How many markers are written without a limit: more than there are.
MOST_MARKERS = 100_000
# The cells that the files have.
CELLS = ("A", "B", "C")
COMMON = ("large", "explain", "progress")
# Its flags, its options, how many words that are no options it needs and may have, and what it tells about itself.
Command = namedtuple("Command", "flags options least most tells", defaults=(("help",),))
COMMANDS = {
    "canon": Command((*COMMON, "no-clobber"), (), 0, 2),
    "check": Command((*COMMON, "names"), ("files0-from",), 0, MANY),
    "same": Command(COMMON, (), 2, 2),
    "diff": Command((*COMMON, "brief", "json"), ("cell", "layer", "unit", "limit", "markers", "markers-limit"), 2, 2),
    "show": Command(COMMON, (), 0, 1),
    "key": Command((*COMMON, "names", "zero", "quiet"), ("files0-from", "check"), 0, MANY),
    "keys": Command(COMMON, (), 0, 1),
    "info": Command((*COMMON, "json"), (), 0, 1),
    "rekey": Command(COMMON, (), 2, 2),
    "explain": Command((), (), 0, 1),
}
# The options that may be repeated, those whose value may be any word, the words for that of `oasprep`, and those for a unit.
REPEATED = ("drop", "cell", "layer")
ANY = ("cell", "layer")
DROPPED = ("properties", "layer-names", "extensions")
UNITS = ("grid", "um")
LETTERS = {"h": "help", "V": "version", "q": "quiet", "z": "zero"}
# What the help calls the files that have to be there.
NEEDED = {"same": ("<A>", "<B>"), "diff": ("<A>", "<B>"), "rekey": ("<OLD>", "<NEW>")}
# What a command reads: files by name, a list of names, or a list of keys.
FILES, NAMES, KEYS = "files", "names", "keys"

# The run of a command. `reads` is one of the three kinds, and `inputs` are the names of these files, or of the one list; None
# is standard input. The output is None where it is standard output. `flags` are those that matter. For `diff` there are the
# cells and the layers to which it is limited, its unit, its limit, the file for markers and how many these may be; None where
# there is none, and for grid steps. `explain` has a number.
FIELDS = "command reads inputs output flags cells layers unit limit markers most number"
Request = namedtuple("Request", FIELDS, defaults=(None, frozenset(), *(None,) * 7))
# The help of a command, or of the program where it is None.
Help = namedtuple("Help", "command")
Version = namedtuple("Version", "")
# A command line that isn't understood: status 2, and the message has all texts of one of these.
Wrong = namedtuple("Wrong", "told")
# The numbers and the names of reasons.
REASONS = {word for row in (*reasons(), *preparing_reasons()) for word in row[:2]}


def is_option(word):
    return word.startswith("-") and word != "-"


def named_by(word, command):
    """The flags and options that a word names, each with its value or None, and how the message would name it."""
    if word.startswith("--"):
        name, sign, value = word[2:].partition("=")
        return [(name, value if sign else None, f"--{name}")]
    letters = {letter: name for letter, name in LETTERS.items() if name in (*command.flags, *command.tells)}
    return [(letters.get(letter, ""), None, f"-{letter}") for letter in word[1:]]


def is_number(text):
    return text.isascii() and text.isdigit() and int(text) < 2**64


def is_layer(text):
    """Whether a word is a layer, with a datatype or without one."""
    numbers = text.split("/")
    return len(numbers) < 3 and all(map(is_number, numbers))


def no_values(name, value):
    """The parts of an option's value that it can't have."""
    if name in ("limit", "markers-limit"):
        return [] if is_number(value) else [value]
    if name == "unit":
        return [] if value in UNITS else [value]
    return [word for word in value.split(",") if word not in DROPPED] if name == "drop" else []


class Words:
    """The words of a command as they are read: the files, what is given, and what is wrong with a word."""

    def __init__(self, command, words):
        self.command, self.left = command, list(words)
        self.files, self.given, self.wrong, self.tells = [], {}, [], None
        while self.left and not self.tells:
            self.take(self.left.pop(0))

    def take(self, word):
        if word == "--":
            while self.left:
                self.take_file(self.left.pop(0))
        elif is_option(word):
            for name, value, shown in named_by(word, self.command):
                self.take_named(name, value, shown)
        else:
            self.take_file(word)

    def take_file(self, word):
        self.files.append(word)
        if len(self.files) > self.command.most:
            self.wrong.append((f"'{word}'",))

    def take_named(self, name, value, shown):
        if name in self.command.tells and value is None:
            self.tells = None if self.wrong else name
        elif name in self.command.flags:
            self.take_flag(name, value)
        elif name in self.command.options:
            self.take_option(name, value)
        else:
            self.wrong.append((f"'{shown}'",))

    def take_flag(self, name, value):
        if value is not None or name in self.given:
            self.wrong.append((f"'--{name}'",))
        self.given[name] = True

    def take_option(self, name, value):
        if value is None and self.left and not is_option(self.left[0]):
            value = self.left.pop(0)
        if value is None or value == "" and name not in ANY or name in self.given and name not in REPEATED:
            self.wrong.append((f"'--{name} <",))
        else:
            self.wrong += [(f"'{word}'", f"'--{name} <") for word in no_values(name, value)]
        self.given[name] = f"{self.given[name]},{value}" if name in self.given else value


def together(name, read):
    """What is wrong with words of which each by itself is right."""
    files, given, command = read.files, read.given, COMMANDS[name]
    if len(files) < command.least:
        yield NEEDED[name][len(files):]
    if files and "files0-from" in given:
        yield ("--files0-from <",)
    has_names = files or "files0-from" in given
    if has_names and "check" in given:
        yield ("--check <",)
    if has_names and "quiet" in given:
        yield ("--quiet",)
    if not has_names and "quiet" in given and "check" not in given:
        yield ("--check <",)
    if files.count("-") > 1 and name not in ("canon", "rekey"):
        yield ("standard input",)
    if not all(map(is_layer, given.get("layer", "0").split(","))):
        yield ("a layer is a number",)
    if "markers-limit" in given and "markers" not in given:
        yield ("--markers <",)
    if "markers" in given:
        if given["markers"] == "-":
            yield ("standard output",)
        if given["markers"] in files:
            yield ("--markers", given["markers"])
    if name == "explain" and files and files[0] not in REASONS:
        yield ("no reason",)


def file_of(words, place):
    """The file that a word names, or None for standard input or output."""
    word = words[place] if place < len(words) else "-"
    return None if word == "-" else word


def of_many(given, files):
    """What `check` or `key` reads, and its flags that matter: lines have names where it isn't one file alone."""
    if "check" in given:
        return KEYS, (file_of([given["check"]], 0),), {"quiet", "zero"}
    if "files0-from" in given:
        return NAMES, (file_of([given["files0-from"]], 0),), {"zero"}
    return FILES, tuple(file_of(files, i) for i in range(max(len(files), 1))), {"names", "zero"}


def layers_of(given):
    """The layers to which a difference is limited, without those of which another is a part; or None."""
    if "layer" not in given:
        return None
    layers = {tuple(map(int, layer.split("/"))) for layer in given["layer"].split(",")}
    return frozenset(layer for layer in layers if len(layer) == 1 or layer[:1] not in layers)


def difference_of(given):
    """The fields of a request that `diff` has. A cell that no file has is the same as none, and counts have no unit."""
    limit, most = int(given.get("limit", NO_LIMIT)), int(given.get("markers-limit", MOST_MARKERS))
    return {
        "cells": frozenset(given["cell"].split(",")) & {*CELLS} if "cell" in given else None,
        "layers": layers_of(given),
        "unit": None if given.get("unit") == "grid" or "brief" in given else given.get("unit"),
        "limit": None if limit == NO_LIMIT else limit,
        "markers": given.get("markers"),
        "most": None if most >= MOST_MARKERS else most,
    }


def request_of(name, read):
    """The run that words request which are right."""
    files, given, command = read.files, read.given, COMMANDS[name]
    if name == "explain":
        return Request(name, FILES, (), number=files[0] if files else None)
    if name in ("check", "key"):
        reads, inputs, flags = of_many(given, files)
        if reads == FILES and (len(inputs) > 1 or "zero" in given):
            given = {**given, "names": True}
        return Request(name, reads, inputs, flags=frozenset(given) & {*COMMON, *flags})
    output = file_of(files, 1) if name in ("canon", "rekey") else None
    inputs = tuple(file_of(files, i) for i in range(2 if name in ("same", "diff") else 1))
    flags = frozenset(given) & {*command.flags} - ({"no-clobber"} if output is None else set())
    return Request(name, FILES, inputs, output, flags, **difference_of(given))


def requested(words):
    """What the words after the program's name request: a Request, Help or Version; or Wrong."""
    if not words:
        return Wrong((("subcommand",),))
    if words[0] in ("--help", "-h"):
        return Help(None)
    if words[0] in ("--version", "-V"):
        return Version()
    if words[0] == "help":
        return help_of(words[1:])
    if words[0] == "--":
        return Wrong((("subcommand",), *((f"'{word}'",) for word in words[1:2])))
    if words[0] not in COMMANDS:
        return Wrong(((f"'{words[0]}'",),))
    read = Words(COMMANDS[words[0]], words[1:])
    if read.tells:
        return Help(words[0])
    wrong = read.wrong or list(together(words[0], read))
    return Wrong(tuple(wrong)) if wrong else request_of(words[0], read)


def help_of(words):
    """What the words after `help` request."""
    if words and words[0] not in COMMANDS:
        return Wrong(((f"'{words[0]}'",),))
    return Wrong(((f"'{words[1]}'",),)) if len(words) > 1 else Help(words[0] if words else None)
