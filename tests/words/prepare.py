"""The words of `oasprep`, as table.py, lines.py, scenes.py and results.py have those of `oascanon`."""

import functools
from collections import namedtuple
from itertools import combinations

from commands import answer
from layout import LARGE
from layouts import MAGIC, START
from lines import EVERYWHERE, NOWHERE, at_each_place, is_plain, lists_of
from results import Run, is_help, is_version, names_of
from scenes import A, B, DASH, GIVEN, OLD, canonical, is_named, refused, respelled, scene, too_many
from table import COMMON, DROPPED, FILES, MANY, NAMES, Command, Help, Version, Words, Wrong, file_of, is_option

# What is asked of each of many files, and of two.
OF_EACH, OF_TWO = ("key", "check"), ("same",)
QUESTIONS = (*OF_EACH, *OF_TWO)
COMMAND = Command((*COMMON, *QUESTIONS), ("drop", "files0-from"), 0, MANY, ("help", "version"))
WORDS = (
    *(f"--{flag}" for flag in (*COMMON, *QUESTIONS)), "--drop=properties", "--drop=layer-names,extensions", "--files0-from=n",
    "a", "b", "-",
)
SPELLED = (
    ("--drop=extensions",), ("--drop=layer-names",), (f"--drop={','.join(DROPPED)}",), ("--drop=properties,nope",),
    ("--drop=nope",), ("--drop=",), ("--drop", "properties"), ("--drop", "extensions,properties"), ("--drop", "-"), ("--drop",),
    ("--files0-from=-",), ("--files0-from", "n"), ("--files0-from", "-"), ("--files0-from",), ("o",),
)
LACKED = (*NOWHERE, ("--key=1",), ("--check=l",), ("--names",), ("-q",))
# What is asked of which files, what is to be left out, and the flags.
Request = namedtuple("Request", "command reads inputs output question dropped flags")
HEAD = MAGIC + START
# A property, the name of a layer, and that of an extension.
KINDS = tuple(map(bytes.fromhex, ("1C1401700801", "0B014C0000", "1E010178")))


def all_lines():
    """Each command line once: lists of its words; with further words at each place those of one, and those of two that have a
    file and request a run."""
    lines = dict.fromkeys(lists_of(WORDS))
    for words in lists_of(WORDS, 2):
        is_run = isinstance(requested(words), Request) and not all(map(is_option, words))
        for more in (*EVERYWHERE, *(SPELLED if is_run or len(words) < 2 else ()), *(LACKED if len(words) < 2 else ())):
            lines |= dict.fromkeys(at_each_place(words, more))
    return [words for words in lines if is_plain(requested(words))]


def together(read):
    """What is wrong with words of which each by itself is right."""
    files, given = read.files, read.given
    asked = [name for name in QUESTIONS if name in given]
    for one, other in combinations(asked, 2):
        yield (f"--{one}", f"--{other}")
    if "files0-from" in given and files:
        yield ("--files0-from",)
    if "files0-from" in given and not {*OF_EACH} & {*asked}:
        yield from (("--files0-from",), ("--key",))
    if "same" in given and len(files) != 2:
        yield ("--same",)
    if not asked and len(files) > 2:
        yield ("--key",)
    if asked and files.count("-") > 1:
        yield ("standard input",)


def requested(words):
    """What the words after the program's name request."""
    read = Words(COMMAND, words)
    if read.tells:
        return Help(None) if read.tells == "help" else Version()
    wrong = read.wrong or list(together(read))
    return Wrong(tuple(wrong)) if wrong else request_of(read)


def request_of(read):
    """The run that words request which are right."""
    given, files = read.given, read.files
    question = next((name for name in QUESTIONS if name in given), None)
    listed = given.get("files0-from")
    count = len(files) or 1 if question else 1
    inputs = tuple(file_of(files, i) for i in range(count)) if listed is None else (file_of([listed], 0),)
    output = None if question else file_of(files, 1)
    dropped = frozenset(given.get("drop", "").split(",")) & {*DROPPED}
    reads = FILES if listed is None else NAMES
    return Request("oasprep", reads, inputs, output, question, dropped, frozenset(given) & {*COMMON})


def with_kinds(data, order):
    """A file with a record of each kind that may be left out, in this order."""
    kinds = b"".join(KINDS[i] for i in order)
    return data[:len(HEAD)] + kinds + data[len(HEAD):]


def of_kinds(*order):
    """A scene in which each file has these kinds of records, in this order."""
    dash, given, a, b = (with_kinds(data, order) for data in (DASH, GIVEN, A, B))
    return scene(f"kind {order[0]} first", dash, given, a=a, b=b, o=OLD)


# In three scenes another kind comes first, so that together the refusals show which kinds may be left out. The last two show
# which files are compared.
SCENES = (
    scene("prepared", respelled(DASH), respelled(GIVEN), a=canonical(A), b=respelled(B)),
    scene("refused", too_many(1), too_many(0), a=too_many(2), b=too_many(3)),
    *(of_kinds(*order) for order in ((0, 1, 2), (1, 2, 0), (2, 0, 1))),
    scene("a alone", refused(1), GIVEN, a=respelled(A), b=refused(2), o=OLD),
    scene("without a", respelled(DASH), too_many(0), b=B, o=OLD),
)


def scenes_of(request):
    return SCENES if request.question == "same" else SCENES[:5]


@functools.lru_cache(None)
def prepared(files, question, dropped, is_large):
    """What the plain program says. A file that is refused by a limit has no record that may be left out."""
    words = (*([f"--{question}"] if question else []), *sorted(dropped))
    status, out, err = answer(" ".join(("prepare", *words)), files)
    return answer("canon", files, 2, LARGE) if is_large and b": refused 24 at " in err else (status, out, err)


def put_answer(run, *files):
    """Takes what the plain program says of one file or of two."""
    request = run.request
    out = run.took(*prepared(files, request.question, request.dropped, run.is_large))
    if out is not None and request.output is not None:
        run.writes(request.output, out)
    else:
        run.out += out or b""


@functools.lru_cache(None)
def result_of(request, scene, kind):
    """What a request has to give in a scene."""
    run = Run(request, scene, kind)
    if request.question == "same":
        if files := run.two_layouts():
            put_answer(run, *files)
    else:
        for file in filter(None, map(run.layout, names_of(run))):
            put_answer(run, file)
    return run.result()


def is_seen(request):
    """Whether all of a request can be seen by its results: not where a file isn't there, as `o` often isn't."""
    return is_named(request) and "o" not in request.inputs


def is_text_of(wanted, text):
    """Whether this is the help or the version."""
    return is_help(text, "oasprep", COMMAND) if isinstance(wanted, Help) else is_version(text, "oasprep")
