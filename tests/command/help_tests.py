"""The commands of the help are those of the completions and of the manual page."""
import pathlib, re, subprocess

TOP = pathlib.Path(__file__).resolve().parents[2]


def output(program, *words):
    return subprocess.run([program, *words], capture_output=True, text=True, check=True).stdout


def commands(program):
    listed = output(program, "--help").split("Commands:\n")[1].split("\n\n")[0]
    return {line.split()[0] for line in listed.splitlines()}


def flags(program, command):
    return set(re.findall(r"--[a-z0-9-]+", output(program, command, "--help").split("Status:")[0]))


def test_bash(program, folder):
    text = (TOP / "completions/oascanon.bash").read_text()
    assert set(re.search(r"commands='([^']*)'", text)[1].split()) == commands(program)


def test_bash_completes(program, folder):
    script = f"source {TOP}/completions/oascanon.bash; COMP_WORDS=(oascanon ca); COMP_CWORD=1; _oascanon; echo ${{COMPREPLY[@]}}"
    assert output("bash", "-c", script).split() == ["canon"]


def test_zsh(program, folder):
    text = (TOP / "completions/_oascanon").read_text()
    assert set(re.findall(r"^  ['\"]([a-z]+):", text, re.M)) == commands(program)


def test_fish(program, folder):
    text = (TOP / "completions/oascanon.fish").read_text()
    assert set(re.findall(r"-a ([a-z]+) ", text)) == commands(program)


def test_flags(program, folder):
    for name in ("oascanon.bash", "_oascanon", "oascanon.fish"):
        text = (TOP / "completions" / name).read_text().replace("-l ", "--")
        for command in commands(program) - {"help"}:
            missing = {flag for flag in flags(program, command) if flag not in text}
            assert not missing, f"{name} lacks {missing} of {command}"


def test_manual(program, folder):
    text = (TOP / "man/oascanon.1").read_text().replace("\\-", "-")
    for command in commands(program) - {"help"}:
        assert re.search(rf"^\.BR? (oascanon )?{command}\b", text, re.M), command
        for flag in flags(program, command):
            assert flag in text, flag


def test_version(program, folder):
    version = output(program, "--version").split()[1]
    assert f'"oascanon {version}"' in (TOP / "man/oascanon.1").read_text()


def test_help_fits_a_screen(program, folder):
    lines = output(program, "--help").splitlines()
    assert len(lines) <= 24 and max(map(len, lines)) <= 80
    assert len(re.findall(r"oascanon [a-z]+ .*\.oas", "\n".join(lines))) == 3


def test_examples(program, folder):
    for command in commands(program) - {"help"}:
        example = output(program, command, "--help").split("Example:\n")[1].splitlines()[0]
        assert f"oascanon {command}" in example


def test_version_has_the_profiles(program, folder):
    assert re.search(r"profiles one and two", output(program, "--version"))


def test_each_page_has_the_version_and_names_the_others(program, folder):
    version = output(program, "--version").split()[1]
    pages = {path.stem: path.read_text().replace("\\-", "-") for path in (TOP / "man").glob("*.1")}
    assert set(pages) == {"oascanon", "oasprep", "oascanon-textconv", "klayout-to-canonical"}
    for name, text in pages.items():
        assert re.match(rf'\.TH [A-Z-]+ 1 "" "(oascanon|oasprep) {re.escape(version)}" ', text), name
        named = set(re.findall(r"^\.BR ([a-z-]+) \(1\)", text.split(".SH SEE ALSO")[1], re.M))
        assert named >= ({"oascanon"} if name != "oascanon" else set(pages) - {name}), name
    assert "30 to 33" in pages["oasprep"]


def test_scripts_have_pages(program, folder):
    for script in ("klayout-to-canonical", "oascanon-textconv"):
        assert (TOP / "man" / f"{script}.1").exists() and (TOP / "scripts" / script).exists()


def test_version_of_a_build_that_is_no_release(program, folder):
    version = output(program, "--version").split()[1]
    released = re.findall(r"^## (\S+)$", (TOP / "CHANGELOG.md").read_text(), re.M)
    assert version in released or re.fullmatch(r"[0-9.]+-dev", version) and version.removesuffix("-dev") not in released
