"""The command lines: for each command all lists of up to three of its words; those of four that have two files, no option
twice, and at most one of the flags that every command has; and lists of a few words with words of another kind at each place.

`a` and `b` are files, `b` only after `a`, since lines with other names are the same to a program. `o`, after another file, and
`m` are files that are written; `n` is a list of names, and `l` a list of keys.
"""

from itertools import product

from table import COMMANDS, COMMON, NAMES, Request, is_option, named_by, requested

# The words of each command besides the common flags: its own flags and options, and files.
WORDS = {
    "canon": ("--no-clobber", "a", "o", "-"),
    "check": ("--names", "--files0-from=n", "a", "b", "-"),
    "same": ("a", "b", "-"),
    "diff": (
        "--cell=B", "--layer=2", "--brief", "--json", "--unit=um", "--limit=2", "--markers=m", "--markers-limit=1", "a", "b", "-",
    ),
    "show": ("a", "-"),
    "key": ("--names", "--zero", "--quiet", "--files0-from=n", "--check=l", "a", "b", "-"),
    "keys": ("a", "-"),
    "info": ("--json", "a", "-"),
    "rekey": ("a", "o", "-"),
    "explain": ("23", "Magic", "101", "-"),
}
MOST, ALL = 4, 3
# Words that every command has.
EVERYWHERE = (("--",), ("--help",), ("-h",), ("./-",))
# Other spellings of options, and other values.
SPELLED = (
    ("--names",), ("--brief",), ("--json",), ("--no-clobber",), ("-q",), ("-z",), ("-qz",), ("-zq",),
    ("--cell=C",), ("--cell=b",), ("--cell=",), ("--cell", "B"), ("--cell", "-"), ("--cell",),
    ("--layer=1/1",), ("--layer=2/1",), ("--layer=1/",), ("--layer=2/1/1",), (f"--layer={2**64}",), ("--layer=x",),
    ("--layer=",), ("--layer", "2"), ("--layer", "-1"), ("--layer",),
    ("--unit=grid",), ("--unit=mm",), ("--unit=",), ("--unit", "um"), ("--unit", "-"), ("--unit",),
    ("--limit=0",), ("--limit=1",), (f"--limit={2**64 - 1}",), (f"--limit={2**64}",), ("--limit=x",), ("--limit=-1",),
    ("--limit=",),
    ("--limit", "2"), ("--limit", "x"), ("--limit", "-1"), ("--limit", "-"), ("--limit",),
    ("--markers=-",), ("--markers=a",), ("--markers", "m"), ("--markers", "-"), ("--markers",),
    ("--markers-limit=0",), ("--markers-limit=2",), (f"--markers-limit={2**64 - 1}",), (f"--markers-limit={2**64}",),
    ("--markers-limit=x",), ("--markers-limit=",), ("--markers-limit", "1"), ("--markers-limit", "-1"), ("--markers-limit",),
    ("--files0-from=-",), ("--files0-from", "n"), ("--files0-from", "-"), ("--files0-from",),
    ("--check=-",), ("--check", "l"), ("--check", "-"), ("--check",),
)
# Words that no command has.
NOWHERE = (
    ("--version",), ("-V",), ("--nope",), ("-x",), ("-qx",), ("--larg",), ("--Large",), ("--large=1",), ("--large=",), ("-l",),
)
# What comes in the place of a command, and after it.
NO_COMMANDS = (
    "", "--", "-", "-x", "--nope", "nope", "can", "CANON", "keyss", "--help", "-h", "--version", "-V", "help",
    *(f"--{name}" for name in COMMON),
)
AFTER_THEM = ("canon", "a", "--help")
# What a file's name comes after.
BEFORE = {"b": {"a"}, "o": {"a", "-"}}


def is_in_order(words):
    """Whether `b` comes only after `a`, and `o` only after another file."""
    return all(name not in words or before & {*words[:words.index(name)]} for name, before in BEFORE.items())


def is_varied(words):
    """Whether there are two files, no option twice, and at most one of the flags that every command has."""
    options = [word for word in words if is_option(word)]
    return len({*options}) == len(options) <= len(words) - 2 and sum(word[2:] in COMMON for word in options) < 2


def lists_of(words, most=MOST):
    """The lists of up to so many words: all of three and fewer, and the varied ones of four."""
    lists = (found for count in range(most + 1) for found in product(words, repeat=count))
    return (found for found in lists if is_in_order(found) and (len(found) <= ALL or is_varied(found)))


def of_command(name, most=MOST):
    """The same of a command's words."""
    return lists_of((*(f"--{flag}" for flag in COMMON if flag in COMMANDS[name].flags), *WORDS[name]), most)


def is_of(words, name):
    """Whether a command has the flags or the option that these words spell."""
    command = COMMANDS[name]
    return all(flag in (*command.flags, *command.options) for flag, _, _ in named_by(words[0], command))


def at_each_place(words, more):
    return ((*words[:place], *more, *words[place:]) for place in range(len(words) + 1))


def few_of(name):
    """A command's lists of up to two words; where it needs two files those of one, and those of an option, `a` and `b`."""
    if COMMANDS[name].least < 2:
        return of_command(name, 2)
    return (words for words in of_command(name, 3) if len(words) < 2 or words[1:] == ("a", "b") and is_option(words[0]))


def with_more(name):
    """Lists of up to two of a command's words, with words that every command has at each place; its lists of a few words with
    other spellings; and with each word that the command lacks the lists of one word, or of two where it needs two, that request
    a run."""
    own = [more for more in SPELLED if is_of(more, name)]
    others = [more for more in (*SPELLED, *NOWHERE) if more not in own and len(more) == 1]
    for all_of_it, further in ((of_command(name, 2), EVERYWHERE), (few_of(name), own)):
        for words in all_of_it:
            for more in further:
                yield from at_each_place(words, more)
    for words in of_command(name, max(COMMANDS[name].least, 1)):
        if isinstance(requested((name, *words)), Request):
            for more in others:
                yield from at_each_place(words, more)


def is_plain(wanted):
    """Whether no layout is read as a list of names."""
    return getattr(wanted, "reads", None) != NAMES or wanted.inputs[0] in (None, "n")


def all_lines():
    """Each command line once: the words after the program's name. Those that read a layout as a list of names are left out."""
    lines = {(name, *words): None for name in COMMANDS for words in (*of_command(name), *with_more(name))}
    for first in NO_COMMANDS:
        lines |= {(first, *words): None for count in range(3) for words in product(AFTER_THEM, repeat=count)}
    lines |= {("help", *words): None for count in range(3) for words in product((*COMMANDS, "nope"), repeat=count)}
    return [(), *(words for words in lines if is_plain(requested(words)))]
