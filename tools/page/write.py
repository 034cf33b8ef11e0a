#!/usr/bin/env python3
"""Writes crates/cdc_page_frame/src/frame.rt, the constants that hold the texts of pages and drawings, from tools/page/page.html and
tools/page/drawing.svg.

  tools/page/write.py             writes the file
  tools/page/write.py --check     compares it; the exit status is 1 if it differs

The text before the word DATA, which stands once in the page, is the constant BEFORE, the text after it AFTER. The constant STYLE
is what follows the first tag of a drawing.
Needs Python 3.8 or later.
"""
import os
import sys

TOP = os.path.realpath(f"{os.path.dirname(os.path.realpath(__file__))}/../..")
PAGE, DRAWING = f"{TOP}/tools/page/page.html", f"{TOP}/tools/page/drawing.svg"
FRAME = f"{TOP}/crates/cdc_page_frame/src/frame.rt"
HEAD = "//! The texts of pages and drawings. Written by tools/page/write.py from files in tools/page/; change those.\n"


def constant(name, comment, text):
    if '"##' in text:
        sys.exit("tools/page/write.py: a text has a quote before two number signs, which ends a raw string")
    return f'\n/// {comment}\npub const {name}: &str = r##"{text}"##;\n'


def frame():
    with open(PAGE, encoding="ascii") as file:
        parts = file.read().split("DATA")
    if len(parts) != 2:
        sys.exit("tools/page/write.py: the word DATA has to stand once in the page")
    before, after = parts
    with open(DRAWING, encoding="ascii") as file:
        style = file.read()
    return (HEAD + constant("BEFORE", "The text of a page before its data.", before)
            + constant("AFTER", "The text of a page after its data.", after)
            + constant("STYLE", "What follows the first tag of a drawing: its style, its marks and the names of the lanes.", style))


def main():
    made = frame()
    if sys.argv[1:] == ["--check"]:
        with open(FRAME, encoding="ascii") as file:
            if file.read() != made:
                sys.exit("tools/page/write.py: frame.rt differs from the files in tools/page; run tools/page/write.py")
        return
    if sys.argv[1:]:
        sys.exit(__doc__)
    with open(FRAME, "w", encoding="ascii") as file:
        file.write(made)


if __name__ == "__main__":
    main()
