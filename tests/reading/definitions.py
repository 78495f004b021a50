"""The definitions of the repository's specs/, and on which others each of them rests, from their text."""
import pathlib, re

TOP = pathlib.Path(__file__).resolve().parents[2]
WORD = re.compile(r"[A-Za-z_][A-Za-z0-9_']*(?:-[A-Za-z0-9_]+)*")
HEAD = re.compile(r"^(?:abbrev |unfoldable )*(?:pub )?(record |data |abbrev )?(?:pub )?(" + WORD.pattern + ")")


class Definition:
    """One definition: where it is, its text without comments, and what it names."""

    def __init__(self, crate, file, name, lines):
        self.crate, self.file, self.name, self.lines = crate, file, name, lines
        self.words = set(WORD.findall("\n".join(lines)))

    def key(self):
        return self.crate, self.file, self.name


BEGINS = re.compile(r"^(abbrev|unfoldable|record|data|pub)\b")


def blocks(text):
    """The definitions of a file, each with all of its lines, without comments and imports. Those of a module within the file
    are indented further."""
    lines, is_within = [], False
    for line in text.split("\n"):
        if line.lstrip().startswith("--") or line.startswith(("use ", "pub use ", "pub mod ")) or not line.strip():
            continue
        if line.startswith("module "):
            is_within = True
            continue
        is_within = is_within and line.startswith("  ")
        line = line[2:] if is_within else line
        if BEGINS.match(line) and lines:
            yield lines
            lines = []
        lines.append(line)
    if lines:
        yield lines


def imports(text):
    """What each imported word means: the crate, the file and the name; a name of None is the whole file."""
    found = {}
    for crate, file, names, alias in re.findall(r"^(?:pub )?use Rattle\.(\w+)\.specs\.(\w+)(?:\.\{([^}]*)\})?(?: as (\w+))?", text, re.M):
        if names:
            for part in names.split(","):
                name, _, other = part.strip().partition(" as ")
                found[other.strip() or name.strip()] = (crate, file, name.strip())
        elif alias:
            found[alias] = (crate, file, None)
    return found


def read_all():
    """All definitions by key, and the imports of each file."""
    definitions, imported = {}, {}
    for path in sorted(TOP.glob("crates/*/specs/*.antt")):
        crate, file = path.parts[-3], path.stem
        text = path.read_text()
        imported[crate, file] = imports(text)
        for lines in blocks(text):
            name = HEAD.match(lines[0])
            if name and BEGINS.match(lines[0]):
                one = Definition(crate, file, name[2], lines)
                definitions[one.key()] = one
    return definitions, imported


def is_of_laws(file):
    """Whether a file has laws: they are proved, so nobody has to trust them. A tree of a kind of record carries some."""
    return file.endswith("Laws") or file in ("Found", "FoundParts", "ShapeNever")


def handed_on():
    """For each crate the files of those below it that its specs/Lib.antt re-exports: by crate and name, whose they are and what
    they are called there."""
    found = {}
    for path in TOP.glob("crates/*/specs/Lib.antt"):
        for crate, file, alias in re.findall(r"^pub use Rattle\.(\w+)\.specs\.(\w+)(?: as (\w+))?$", path.read_text(), re.M):
            found[path.parts[-3], alias or file] = crate, file
    return found


HANDED_ON = handed_on()


def origin(crate, file):
    """Where a file that a crate hands on stands."""
    while (crate, file) in HANDED_ON:
        crate, file = HANDED_ON[crate, file]
    return crate, file


def rests_on(one, definitions, imported):
    """The definitions that one names. A file that is imported whole is named by its alias and a dot."""
    text = "\n".join(one.lines)
    here = imported[one.crate, one.file]
    for word in sorted(one.words):
        key = here.get(word, (one.crate, one.file, word))
        key = (*origin(*key[:2]), key[2])
        if key[2] is None:
            for name in re.findall(rf"\b{word}\.([A-Za-z_][A-Za-z0-9_']*)", text):
                key = (key[0], key[1], name)
                if key in definitions:
                    yield definitions[key]
        elif key in definitions and key != one.key():
            yield definitions[key]


def closure(roots):
    """All that these rest on, and they themselves, each after what it rests on."""
    definitions, imported = read_all()
    order, seen = [], set()

    def visit(one):
        if one.key() in seen:
            return
        seen.add(one.key())
        for other in rests_on(one, definitions, imported):
            if not is_of_laws(other.file):
                visit(other)
        order.append(one)

    for root in roots:
        visit(definitions[root])
    return order
