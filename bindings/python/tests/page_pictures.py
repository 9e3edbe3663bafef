"""page_pictures.py FOLDER: makes the picture of README.md, page.png, and one of each view and look of a page, by a browser.

The run is that of the hot spot, with the trace of the tests. With no other argument nothing else is written.
"""
import os
import sys
import tempfile

HERE = os.path.dirname(os.path.abspath(__file__))
sys.path[:0] = [HERE, os.path.dirname(HERE)]

import browser
import tezgumi
from test_page import TRACE, hot_spot


def main(folder):
    with tempfile.TemporaryDirectory() as work, browser.Browser() as window:
        path = os.path.join(work, "run.html")
        tezgumi.page(hot_spot(), path, trace=TRACE, title="A hot spot that wanders", decide=None)
        for width, dark in ((1280, False), (1280, True), (400, False), (400, True)):
            page = window.open(path, width, 900, dark=dark)
            page.wait("document.documentElement.dataset.checked")
            page.picture(os.path.join(folder, f"page-{width}-{'dark' if dark else 'light'}.png"), whole=True)
            page.close()
        draw_views(window, path, folder)


def draw_views(window, path, folder):
    page = window.open(path, 900, 900)
    page.wait("document.documentElement.dataset.checked")
    page.value("choose(3)")
    page.wait("document.documentElement.dataset.round === '4'")
    for view in ("rounds", "chain", "check", "timeline"):
        page.picture(os.path.join(folder, f"page-{view}.png"), "#" + view)
    # README.md shows the maps of loads and the chain: the other parts are out of the way.
    page.value(
        "for (const it of document.querySelectorAll('#greatest, #imbalance')) it.closest('figure').remove();"
        "for (const it of document.querySelectorAll('.pair, details, #check, #timeline, footer, .note, #chain-told')) it.remove();"
        "document.body.style.paddingBottom = 0")
    page.picture(os.path.join(folder, "page.png"), "body")
    shrink(os.path.join(folder, "page.png"))


def shrink(path):
    """The same picture in 128 colors, which take a third of the bytes."""
    from PIL import Image  # which matplotlib needs too

    with Image.open(path) as picture:
        few = picture.convert("RGB").quantize(128, dither=Image.Dither.NONE)
    few.save(path, optimize=True)


if __name__ == "__main__":
    if len(sys.argv) != 2:
        sys.exit(__doc__)
    main(sys.argv[1])
