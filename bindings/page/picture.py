#!/usr/bin/env python3
"""Takes a picture of the page: picture.py PAGE FILE. A Khmer word, the answer, and the step that reorders it."""

import pathlib
import sys
import tempfile
import time
import urllib.parse

sys.dont_write_bytecode = True
from chromium import Page  # noqa: E402

WORD = "\u1781\u17d2\u1798\u17c2\u179a"
WIDTH = 760
# The text and that step, without what is around.
CHOOSE = """
const between = [...by('form').children].slice(1);
const steps = [...by('steps').children].filter((step) => step.dataset.head !== 'run pause reorder_khmer');
for (const element of [...between, ...steps, by('legend'), by('with-font'), by('in-font'), by('broken'), by('by-lines')]) element.style.display = 'none';
"""


def main(path, file):
    url = pathlib.Path(path).resolve().as_uri() + "#" + urllib.parse.urlencode({"text": WORD})
    with tempfile.TemporaryDirectory() as profile:
        page = Page("chromium", profile, url)
        page.resize(WIDTH, 600)
        page.run(CHOOSE)
        time.sleep(1)
        height = page.run("document.querySelector('main').getBoundingClientRect().bottom + 8")
        page.resize(WIDTH, round(height))
        page.screenshot(file)
        page.close()


if __name__ == "__main__":
    if len(sys.argv) != 3:
        sys.exit(__doc__)
    main(*sys.argv[1:])
