#!/usr/bin/env python3
"""pictures.py OASCANON [--check]: draws docs/pictures/one-file.svg from the example files; with --check it compares instead.

The picture shows two spellings of one layout, byte by byte up to END's padding, and the canonical file that both become."""

import hashlib
import pathlib
import subprocess
import sys

TOP = pathlib.Path(__file__).resolve().parents[2]
PICTURE = TOP / "docs/pictures/one-file.svg"
SPELLINGS = ("rectangle-respelled.oas", "rectangle.oas")
MAGIC = 13
ROW = 12


def shown(data):
    """The bytes between the magic and END's padding."""
    return data[MAGIC : data.rindex(b"\x02", 0, len(data) - 250) + 1]


def rows(data):
    text = [f"{byte:02X}" for byte in shown(data)]
    return [" ".join(text[at : at + ROW]) for at in range(0, len(text), ROW)]


def card(x, y, title, below, lines, mark):
    height = 62 + 17 * len(lines)
    out = [
        f'<rect x="{x}" y="{y}" width="290" height="{height}" rx="6" class="card {mark}"/>',
        f'<text x="{x + 14}" y="{y + 22}" class="title">{title}</text>',
        f'<text x="{x + 14}" y="{y + 40}" class="below">{below}</text>',
    ]
    out += [f'<text x="{x + 14}" y="{y + 62 + 17 * at}" class="bytes">{line}</text>' for at, line in enumerate(lines)]
    return out, height


def picture(oascanon):
    canonical = set()
    cards, y = [], 16
    middles = []
    for name in SPELLINGS:
        data = (TOP / "examples" / name).read_bytes()
        canonical.add(subprocess.run([oascanon, "canon"], input=data, stdout=subprocess.PIPE, check=True).stdout)
        part, height = card(16, y, name, f"{len(data)} bytes", rows(data), "")
        cards += part
        middles.append(y + height // 2)
        y += height + 18
    (form,) = canonical
    key = hashlib.sha256(form).hexdigest()
    lines = rows(form)
    middle = y // 2 - 60
    part, height = card(470, middle, "the canonical file", f"{len(form)} bytes", lines, "form")
    cards += part
    end = middle + height // 2
    arrows = [f'<path d="M306,{at} C380,{at} 390,{end} 462,{end}" class="arrow"/>' for at in middles]
    below = middle + height + 26
    arrows.append(f'<path d="M456,{end - 6} L468,{end} L456,{end + 6} z" class="head"/>')
    label = [
        f'<text x="338" y="{middles[0] - 14}" class="command">oascanon canon</text>',
        f'<text x="470" y="{below}" class="below">oascanon key:</text>',
        f'<text x="470" y="{below + 18}" class="bytes">{key[:32]}</text>',
        f'<text x="470" y="{below + 35}" class="bytes">{key[32:]}</text>',
    ]
    style = (
        "text{font-family:sans-serif;fill:#1f2933}.title{font-size:14px;font-weight:bold}.below{font-size:12px;fill:#52606d}"
        ".bytes{font-family:monospace;font-size:12px}.command{font-family:monospace;font-size:13px}"
        ".card{fill:#f5f7fa;stroke:#9aa5b1}.form{fill:#e3f8ff;stroke:#2186eb}.arrow{fill:none;stroke:#2186eb;stroke-width:2}.head{fill:#2186eb}"
    )
    head = f'<svg xmlns="http://www.w3.org/2000/svg" width="780" height="{y}" viewBox="0 0 780 {y}">'
    title = "<title>Two spellings of one layout become one canonical file</title>"
    ground = f'<rect width="780" height="{y}" fill="#ffffff"/>'
    return "\n".join([head, title, f"<style>{style}</style>", ground, *arrows, *cards, *label, "</svg>"]) + "\n"


def main():
    drawn = picture(str(pathlib.Path(sys.argv[1]).resolve()))
    if "--check" not in sys.argv:
        PICTURE.parent.mkdir(exist_ok=True)
        PICTURE.write_text(drawn)
    elif not PICTURE.is_file() or PICTURE.read_text() != drawn:
        sys.exit("docs/pictures/one-file.svg isn't what tests/docs/pictures.py draws of the examples")


if __name__ == "__main__":
    main()
