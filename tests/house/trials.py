"""What tests/edits.py says of edits, over a prover that prints what it is told to: a wrong body that is proved, or that is refused only
for another one, doesn't count as refused."""
import pathlib, sys, tempfile
from types import SimpleNamespace

sys.path.insert(0, str(pathlib.Path(__file__).resolve().parents[1]))
import edits

SOURCE = """//! Two functions.
#![tactic(auto)]

/// One.
pub fn one() -> u8 {
    1
}

/// Two.
pub fn two() -> u8 {
    one() + 1
}
"""
EDITS = {"a.edit": "file: src/lib.rt\nold:     1\nnew:     0\n", "b.edit": "file: src/lib.rt\nold:     one() + 1\nnew:     one() + 2\n"}
ERROR = "./proofs/one/Answers.antt:5:13: error: `returns`: `search`: no proof\nfn x::one: not proved\n"
LACKS = "no proof: expected answers in ./proofs/two/Answers.antt; `search` did not prove `returns`"
CALLS = "it calls `x::one`, which is not proved"
LAST, ALL, PROVED = "only=2 proved=0", "logic=not-proved", "logic=proved"
# What each check in turn prints, and then: how many edits are refused, and what is said of the others.
CASES = [
    ("both are refused", [f"{ERROR}fn x::two: {LACKS}; {CALLS}\n{LAST}"], 2, ""),
    ("one is proved", [f"fn x::one: proved\nfn x::two: {LACKS}\n{LAST}", PROVED, PROVED], 1, "NOT REFUSED"),
    ("one is refused for the other", [f"{ERROR}fn x::two: no proof: {CALLS}\n{LAST}", f"fn x::one: proved\nfn x::two: {LACKS}\n{LAST}"], 2, ""),
    ("one is refused for the other alone", [f"{ERROR}fn x::two: no proof: {CALLS}\n{LAST}", f"fn x::two: proved\n{LAST}", PROVED, PROVED], 1, "NOT REFUSED"),
    ("a third function is refused", [f"{ERROR}fn x::two: {LACKS}\nfn x::three: {LACKS}\n{LAST}", f"{ERROR}{ALL}", PROVED, PROVED], 1, "NOT REFUSED"),
    ("the prover doesn't read them", ["src/lib.rt:6:5: error[E0308]: mismatched types"] * 4, 0, "BAD EDIT"),
    ("the crate is proved with them", [f"fn x::one: proved\nfn x::two: proved\n{LAST}", PROVED, PROVED], 0, "NOT REFUSED"),
]


def tried(folder, printed):
    """Tries both edits over a prover that prints this; returns the edits."""
    printed = iter(printed)

    def checked(_crate, _texts, _flags, _kept):
        text = next(printed)
        return SimpleNamespace(returncode=int(text != PROVED), stdout=text + "\n")

    edits.rt.checked = checked
    crate = SimpleNamespace(name="x", folder=str(folder), is_program=False)
    return edits.Trial(crate, [f"{folder}/{name}" for name in EDITS], None).run()


def checks():
    """Whether each case ends as it must, and the message where it doesn't."""
    real = edits.rt.checked
    with tempfile.TemporaryDirectory() as folder:
        folder = pathlib.Path(folder)
        (folder / "src").mkdir()
        (folder / "src/lib.rt").write_text(SOURCE)
        for name, text in EDITS.items():
            (folder / name).write_text(text)
        for name, printed, refused, said in CASES:
            found = tried(folder, printed)
            count, others = sum(not it.failed for it in found), [it.failed for it in found if it.failed]
            is_right = count == refused and all(it.startswith(said) for it in others)
            yield is_right, f"edits, where {name}: {count} refused, {others}"
    edits.rt.checked = real
