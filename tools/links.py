#!/usr/bin/env python3
"""links.py ADDRESS FILE..: writes a line of Markdown for each set-up, a link that opens it in the page at ADDRESS.

ADDRESS is where a copy of web/site/sel4sim.html stands, as https://example.org/sel4sim.html. What follows the sign # has the
set-up in it, as the page's own "share" packs it (web/browser/source/share.mjs); a browser sends it to no server. The words of a
link are the title of the exercise, or else the name of the file.
"""
import base64
import pathlib
import re
import sys
import urllib.parse
import zlib

TITLE = re.compile(r"# exercise: (.*)")


def fragment(text, name):
    """The part of an address that has a set-up and its name, from # on."""
    packer = zlib.compressobj(9, zlib.DEFLATED, -15)
    packed = packer.compress(text.encode()) + packer.flush()
    return f"#name={urllib.parse.quote(name, safe='')}&setup={base64.urlsafe_b64encode(packed).decode().rstrip('=')}"


def line(address, path):
    text = path.read_text()
    title = TITLE.match(text)
    return f"- [{title[1] if title else path.stem}]({address}{fragment(text, path.name)})"


def main():
    if len(sys.argv) < 3:
        sys.exit("links.py ADDRESS FILE..")
    address, *files = sys.argv[1:]
    print("\n".join(line(address, pathlib.Path(file)) for file in files))


if __name__ == "__main__":
    main()
