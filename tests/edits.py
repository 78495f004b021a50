#!/usr/bin/env python3
"""The edits of `must-fail/`: each is a wrong body, which the prover has to refuse.

    edits.py [CRATE..]         tries the edits of these crates, or of all, over the libraries that were built here (scripts/prove)
    edits.py --beside FOLDER   tries those of each crate that a line of standard input names, as soon as it does, over the libraries of
                               FOLDER, which has these sources: on half of the processors, and on all once the input has ended

The kit's `rt must-fail` tries one edit at a time, and reads the crate and all libraries below it for each. Here a crate is checked with
many wrong bodies at once, and no function but theirs and those that these call: a body changes no contract, so what is proved of one
function doesn't depend on another's body. An edit is refused where the check reports a goal of its own function that isn't proved. That
the function calls another one that isn't proved says nothing of it: it is tried again without that other edit, and so is a second edit
of a function. What changes more than a body is tried by itself, and so is each edit of a check in which a function that no edit changes
has a goal that isn't proved. An edit fails where a check of it alone doesn't refuse it.

What proves crates beside it goes first. The last line is `N passed, M failed`.
"""

import argparse
import contextlib
import importlib.machinery
import importlib.util
import os
import pathlib
import re
import queue
import shutil
import sys
import tempfile
import threading
from dataclasses import dataclass
from types import SimpleNamespace

TOP = pathlib.Path(__file__).resolve().parents[1]
FLAGS = ["--jobs", "1"]
# What a check prints of a function, of a goal in its proof files, and of a file that names what an edit took away.
FUNCTION = re.compile(r"(?m)^fn (\S+): (.*)$")
OF_OTHERS = re.compile(r"it (calls|passes)|a call of")
NAMES_ALONE = re.compile(r"has no field|is not in scope|has no `|was not admitted")


def module_of(name, path):
    sys.dont_write_bytecode = True
    loader = importlib.machinery.SourceFileLoader(name, str(path))
    module = importlib.util.module_from_spec(importlib.util.spec_from_loader(name, loader))
    loader.exec_module(module)
    return module


rt = module_of("prove", TOP / "scripts/prove").rt
sources = module_of("sources", f"{rt.KIT}/bin/rt-plant-bodies")


@dataclass(eq=False)
class Edit:
    """An edit, the file and the function whose body it changes, none where it changes anything else, and why it failed."""

    path: str
    file: str
    function: object = None
    refused: str = ""
    failed: str = ""

    @property
    def name(self):
        return os.path.basename(self.path)


def changed_in(edit, folder):
    """The file, the bytes of it that an edit changes, and what it changes them to; or None, where it has several places."""
    texts, why = rt.read_edit(edit, folder)
    pairs = re.findall(r"(?m)^file: (.*)\nold: (.*)\nnew:( .*|)$", pathlib.Path(edit).read_text(encoding="utf-8"))
    if why or len(pairs) != 1 or len(texts) != 1:
        return None
    file, old, new = pairs[0]
    at = pathlib.Path(folder, file).read_bytes().index(old.encode())
    return file, at, at + len(old.encode()), new


def edit_of(path, folder, functions):
    """An edit, with its function where it changes nothing but that one's body."""
    found = changed_in(path, folder)
    if found is None:
        return Edit(path, "")
    file, begin, end, new = found
    around = [it for it in functions if it.file == file and it.opens <= begin and end <= it.end]
    is_body = len(around) == 1 and "fn " not in new and not around[0].in_cycle
    return Edit(path, file, around[0] if is_body else None)


def symbol_of(crate, function, symbols):
    """The function's name in a check, or None where several of these could be meant, or none."""
    module = "::".join([crate.name, *function.module, ""])
    if not function.block:
        found = [f"{module}{function.name}"]
    elif not function.in_trait:
        # Where the type is declared in another module, that is the function's.
        ends = [it for it in symbols if re.search(rf"::{function.owner}(\+\w+)*::{function.name}$", it)]
        found = [it for it in ends if it.startswith(module)] or ends
    else:
        below = [it[len(module):].split("::") for it in symbols if it.startswith(module)]
        below = [it[0] for it in below if it[1:] == [function.name]]
        below = [it for it in below if function.block.fits(it)] if not function.block.is_trait else [function.block.trait[0]]
        found = [f"{module}{it}::{function.name}" for it in below]
    return found[0] if len(found) == 1 and found[0] in symbols else None


def path_of(crate, function):
    """What a check is told to look at: the function, or its module, where only a check can say how a method of a trait, or of a type
    with arguments, is called there."""
    if not function.block:
        return "::".join([*function.module, function.name])
    if not function.in_trait and len(function.block.words) == 1:
        return f"{function.owner}::{function.name}"
    written = pathlib.Path(crate.folder, "proofs", *function.module).glob(f"*/{function.name}/")
    symbol = symbol_of(crate, function, {"::".join([crate.name, *function.module, it.parent.name, it.name]) for it in written})
    return symbol or "::".join(function.module)


def own_goal(symbol, words, lines):
    """A goal of the function's own that the check didn't prove, or an empty text."""
    if words.startswith("proved"):
        return ""
    lacking = re.search(r"`search` did not prove (`[^;]*`)", words)
    if lacking:
        return f"not proved: {lacking[1]}"
    place = re.compile(rf"(\./)?proofs/{'/'.join(map(re.escape, symbol.split('::')[1:]))}/\S+: error")
    return next((it for it in lines if place.match(it) and not NAMES_ALONE.search(it)), "")


class Trial:
    """The edits of a crate, and the folder of what its checks kept."""

    def __init__(self, crate, paths, kept):
        self.crate, self.kept = crate, kept
        source = sources.Source(crate.folder)
        source.read("src/main.rt" if crate.is_program else "src/lib.rt")
        self.edits = [edit_of(it, crate.folder, source.functions) for it in paths]

    def together(self, edits):
        """The texts with as many of these edits as go together, one a function, and those edits."""
        chosen, texts = [], {}
        with tempfile.TemporaryDirectory(prefix="edits-") as room:
            shutil.copytree(f"{self.crate.folder}/src", f"{room}/src")
            for edit in edits:
                changed, why = rt.read_edit(edit.path, room)
                if why or edit.function in [it.function for it in chosen]:
                    continue
                for path, text in changed.items():
                    pathlib.Path(room, path).write_text(text, encoding="utf-8")
                texts.update(changed)
                chosen.append(edit)
        return texts, chosen

    def check(self, texts, only):
        """Checks what these paths name, and what that calls, with these texts. Returns the lines, or None where not all is read by the
        prover, or all is proved."""
        words = [word for path in only for word in ("--only", path)]
        ran = rt.checked(self.crate, texts, [*FLAGS, *words], self.kept)
        lines = ran.stdout.rstrip("\n").split("\n")
        is_judged = ran.returncode == 1 and lines[-1].startswith("only=")
        is_read = not rt.rtlib.STALE.search(ran.stdout) and not any(rt.unread(it, texts) for it in lines)
        return lines if is_judged and is_read else None

    def round(self, edits):
        """Checks the crate with edits of several functions, and notes which are refused. Returns those that have to be tried again."""
        texts, chosen = self.together(edits)
        lines = self.check(texts, sorted({path_of(self.crate, it.function) for it in chosen}))
        if lines is None:
            return self.alone(edits)
        said = dict(FUNCTION.findall("\n".join(lines)))
        symbols = {edit: symbol_of(self.crate, edit.function, said) for edit in chosen}
        if any(own_goal(symbol, words, lines) for symbol, words in said.items() if symbol not in symbols.values()):
            return [it for it in edits if it not in chosen] + self.alone(chosen)
        again = [it for it in edits if it not in chosen]
        for edit, symbol in symbols.items():
            words = said.get(symbol, "")
            edit.refused = own_goal(symbol, words, lines) if symbol else ""
            if not edit.refused and OF_OTHERS.search(words) and len(chosen) > 1:
                again.append(edit)
            elif not edit.refused:
                self.alone([edit])
        return again

    def alone(self, edits):
        """Tries each edit by itself: on its module, and else, as the kit does, on all of the crate. Returns an empty list."""
        for edit in edits:
            texts, _ = rt.read_edit(edit.path, self.crate.folder)
            modules = {re.sub(r"^src/|\.rt$", "", path).replace("/", "::") for path in texts or {}} - {"lib", "main"}
            lines = self.check(texts, [modules.pop()]) if len(modules) == 1 else None
            if lines:
                edit.refused = next((it for it in lines if ": error" in it and not NAMES_ALONE.search(it)), "")
            if not edit.refused:
                kind, said = rt.must_fail(self.crate, edit.path, FLAGS, self.kept)
                told = said.partition(": ")[2]
                edit.refused, edit.failed = (told, "") if kind in (rt.REFUSED, rt.AT_LIMIT) else ("", told)
        return []

    def run(self):
        """Tries all edits, and returns them."""
        left = [it for it in self.edits if it.function]
        while left:
            before = len(left)
            left = self.round(left)
            if len(left) == before:
                left = self.alone(left)
        self.alone([it for it in self.edits if not it.function])
        return self.edits


def tried(crate):
    """Tries the edits of a crate that stand here; returns how many were refused, how many were not, and a line for each."""
    good, bad = rt.edits_of(SimpleNamespace(folder=f"{TOP}/crates/{crate.name}"))
    lacking = next((it.name for it in crate.below() if not os.path.isdir(it.rlib)), None)
    if good and lacking:
        return 0, 1, [f"the edits of {crate.name} cannot be tried: {lacking} is not built (scripts/prove {crate.name})"]
    with tempfile.TemporaryDirectory(prefix="edits-kept-") as kept:
        edits = Trial(crate, good, kept).run() if good else []
    lines = [f"must-fail {crate.name}/{it.name}: {it.failed or 'refused: ' + it.refused[:160]}" for it in edits]
    lines += [f"must-fail {crate.name}/{os.path.basename(it)}: BAD EDIT: it is no file NAME.edit" for it in bad]
    failed = sum(bool(it.failed) for it in edits) + len(bad)
    return len(edits) + len(bad) - failed, failed, lines


class Trials:
    """Tries the edits of crates side by side, each as soon as it is added. The crates are those of a folder with this repository's
    sources, in which the libraries below a crate are built when it is added."""

    def __init__(self, folder, lanes):
        # The kit's first call sets a signal handler, which only the main thread may do.
        rt.rtlib.guarded()
        with contextlib.redirect_stdout(sys.stderr):
            found = sorted(rt.rtlib.crates_below(str(folder)), key=lambda it: len(it.below()))
        self.left = {it.name: it for it in found}
        self.added, self.threads, self.lock = queue.Queue(), [], threading.Lock()
        self.passed = self.failed = 0
        self.take_more(lanes)

    def add(self, name):
        if crate := self.left.pop(name, None):
            self.added.put(crate)

    def take_more(self, lanes):
        """Works on so many more processors."""
        more = [threading.Thread(target=self.work, daemon=True) for _ in range(lanes)]
        self.threads += more
        for thread in more:
            thread.start()

    def work(self):
        os.setpriority(os.PRIO_PROCESS, threading.get_native_id(), 10)
        while crate := self.added.get():
            try:
                passed, failed, lines = tried(crate)
            except Exception as error:  # the others are tried all the same
                passed, failed, lines = 0, 1, [f"the edits of {crate.name} cannot be tried: {error!r}"]
            self.tell(passed, failed, lines)

    def tell(self, passed, failed, lines):
        with self.lock:
            self.passed, self.failed = self.passed + passed, self.failed + failed
            print("".join(f"{it}\n" for it in lines), end="", flush=True)

    def end(self):
        """Returns once all that was added was tried."""
        for _ in self.threads:
            self.added.put(None)
        for thread in self.threads:
            thread.join()


def follow(folder):
    """Tries the edits of the crates that the input names."""
    lanes = len(os.sched_getaffinity(0))
    trials = Trials(folder, max(lanes // 2, 1))
    for line in sys.stdin:
        trials.add(line.strip())
    for name in sorted(trials.left):
        trials.tell(0, 1, [f"the edits of {name} were not tried: it isn't proved"])
    trials.take_more(lanes - lanes // 2)
    return trials


def main():
    parser = argparse.ArgumentParser(description=__doc__, formatter_class=argparse.RawDescriptionHelpFormatter)
    parser.add_argument("--beside", metavar="FOLDER")
    parser.add_argument("names", nargs="*", metavar="CRATE")
    asked = parser.parse_args()
    if asked.beside:
        trials = follow(asked.beside)
    else:
        trials = Trials(TOP, len(os.sched_getaffinity(0)))
        for name in asked.names or list(trials.left):
            trials.add(name)
    trials.end()
    print(f"{trials.passed} passed, {trials.failed} failed")
    return int(trials.failed > 0)


if __name__ == "__main__":
    sys.exit(main())
