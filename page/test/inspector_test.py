#!/usr/bin/python3
"""inspector_test.py PAGE WASM [PICTURES]: a built page in Chromium, used as an inspector does, and the module of its services, to see how fast they are
there. Ends with 'N passed, M failed'.

With PICTURES, a folder, the page is also kept there as PNG, at two widths and in both colours, and README's picture of it."""
import pathlib
import sys
import time
import traceback

sys.dont_write_bytecode = True
from browser import Browser
from images import LARGEST, LARGEST_EVENTS, REFUSED, STOP, image, record, some_rules
from seen import NAMES, chart, first_view, inputs, refusals, sizes
from used import heard, keep, link, markup, narrow, readings, session

PARTS = (first_view, inputs, sizes, refusals, chart, readings, session, link, markup, keep, heard, narrow)


def pictures(b, folder):
    folder.mkdir(parents=True, exist_ok=True)
    views = {"six": (STOP, [1, 2, 3] * 2), "broken": (STOP, [1, 2, 3, 9, 1, 2, 3]), "largest": (LARGEST, LARGEST_EVENTS),
             "twenty": (image(*some_rules(3)), [(x * x + x // 3) % 4 for x in range(20)]), "refused": (REFUSED[6][1], [1, 2, 3])}
    for name, (grammar, events) in views.items():
        b.load(grammar=grammar, record=record(events), names=NAMES)
        if name == "twenty":
            b.click("#two")
        if name != "refused":
            b.js("document.querySelector(`#chart [data-cell='0 3']`).dispatchEvent(new MouseEvent('click', { bubbles: true }))")
        for width in (1300, 390):
            for scheme in ("light", "dark"):
                b.colours(scheme, width)
                time.sleep(.3)
                b.picture(folder / f"{name}-{width}-{scheme}.png")
        b.colours("light")
    b.open()
    b.colours("light", 1000)
    b.click("#chart [data-cell='0 3']")
    b.picture(folder / "page.png", "section:nth-of-type(2)", "#tree")


def main():
    if len(sys.argv) not in (3, 4):
        sys.exit(__doc__)
    b = Browser(sys.argv[1], sys.argv[2])
    try:
        for part in PARTS:
            part(b)
            b.check(f"{part.__name__}: no complaint in the console", b.complaints(), [])
        b.check("no request to anywhere", b.asked(), [])
        if len(sys.argv) == 4:
            pictures(b, pathlib.Path(sys.argv[3]))
    except Exception as error:  # what could not be done counts as a failure, and the rest is told
        b.check("the test as a whole", f"{type(error).__name__}: {error}"[:800], "no error")
        traceback.print_exc()
    return b.end()


sys.exit(main())
