"""What bash offers; zsh and fish are in tests/completion."""
import pathlib, subprocess

TOP = pathlib.Path(__file__).resolve().parents[2]
REASONS = [str(number) for number in [*range(1, 35), *range(101, 114)]]


def offered_by_bash(folder, words):
    quoted = " ".join(f"'{word}'" for word in words)
    script = f"source {TOP}/completions/oascanon.bash; COMP_WORDS=({quoted}); COMP_CWORD={len(words) - 1}; _oascanon; printf '%s\\n' \"${{COMPREPLY[@]}}\""
    return subprocess.run(["bash", "-c", script], cwd=folder, capture_output=True, text=True, check=True).stdout.split()


def test_bash(program, folder):
    (folder / "chip.list").write_bytes(b"")
    assert offered_by_bash(folder, ["oascanon", "explain", ""]) == REASONS
    assert offered_by_bash(folder, ["oascanon", "explain", "11"]) == ["11", "110", "111", "112", "113"]
    for words in (["--limit", ""], ["--limit", "="], ["--limit", "=", ""]):
        assert offered_by_bash(folder, ["oascanon", "diff", *words]) == ["10", "100", "1000", "10000"], words
    for words in (["--unit", ""], ["--unit", "="], ["--unit", "=", ""]):
        assert offered_by_bash(folder, ["oascanon", "diff", *words]) == ["grid", "um"], words
    for words in (["--files0-from", "chi"], ["--files0-from", "=", "chi"], ["--files0-from", "="]):
        assert offered_by_bash(folder, ["oascanon", "key", *words]) == ["chip.list"], words
