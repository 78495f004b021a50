#!/usr/bin/env python3
"""snippets.py PAGE: what a page shows of C, each piece as a function of its own over the names that the page takes for given."""

import re
import sys

GIVEN = ("const uint8_t *bytes, size_t count, const uint8_t *others, size_t other_count, const oascanon_limits *given, "
         "uint8_t *room, size_t size")


def pieces(page):
    """The indented pieces that are C: those with a type of the header."""
    for piece in re.findall(r"(?:^    .*\n|^\n(?=    ))+", page, re.M):
        if "oascanon_outcome" in piece:
            yield piece


def main():
    with open(sys.argv[1], encoding="utf-8") as file:
        found = list(pieces(file.read()))
    print("#include <stdio.h>\n#include <stdlib.h>\n#include \"oascanon.h\"")
    for i, piece in enumerate(found):
        used = "".join(f"(void){name};" for name in ("bytes", "count", "others", "other_count", "room", "size", "limits"))
        print(f"void piece_{i}({GIVEN});\nvoid piece_{i}({GIVEN}) {{\nconst oascanon_limits limits = *given;\n{used}\n{{\n{piece}}}\n}}")
    sys.exit(not found)


main()
