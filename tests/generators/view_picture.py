#!/usr/bin/env python3
"""Writes docs/view/pi_gains.html, the page of an example, and docs/pictures/view.png, what a browser shows of it.

    python3 -m tests.generators.view_picture ./paver

The picture needs a Chromium; without one the page alone is written.
"""
import sys
from pathlib import Path

import paver
from tests.runners.browser import Browser, find_browser

TOP = Path(__file__).resolve().parents[2]

PAGE, PICTURE = TOP / "docs" / "view" / "pi_gains.html", TOP / "docs" / "pictures" / "view.png"
STEPS = ["document.getElementById('equal').click()", "paverView.showKept()", "paverView.search('4.6, 1.82')",
         "document.activeElement.blur()"]


def main() -> None:
    PAGE.parent.mkdir(exist_ok=True)
    paver.view(TOP / "examples" / "pi_gains.mbx", eps="0.0625", workers=1, program=sys.argv[1]).save(PAGE)
    if find_browser() is None:
        print("there is no chromium: the picture stays as it is")
        return
    browser = Browser(1100, 860)
    try:
        browser.open(PAGE)
        for step in STEPS:
            browser.value(step)
            browser.drawn()
        PICTURE.write_bytes(browser.screenshot())
    finally:
        browser.close()


if __name__ == "__main__":
    main()
