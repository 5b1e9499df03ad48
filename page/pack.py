#!/usr/bin/env python3
"""Writes the page as one file: index.html with its style, its scripts, the module, the examples, and the words and marks
as docs/LOOK.md explains them, in it.

    pack.py MODULE.wasm PAGE.html
"""
import base64
import glob
import gzip
import html
import json
import os
import re
import sys

HERE = os.path.dirname(os.path.realpath(__file__))
EXAMPLES = os.path.join(os.path.dirname(HERE), "examples", "*.sts")
LOOK = os.path.join(os.path.dirname(HERE), "docs", "LOOK.md")


def read(path):
    with open(path) as file:
        return file.read()


def examples():
    """Returns the names, texts and traces of the examples as a script."""
    texts = {os.path.basename(it)[:-4]: it for it in sorted(glob.glob(EXAMPLES))}
    rows = [{"name": name, "text": read(it), "trace": read(f"{it[:-4]}.trace")} for name, it in texts.items()]
    return f"const EXAMPLES = {json.dumps(rows, indent=1)};\n"


def module(path):
    """Returns the module as a script, packed."""
    with open(path, "rb") as file:
        packed = gzip.compress(file.read(), mtime=0)
    print(f"module: {os.path.getsize(path)} bytes, packed {len(packed)}")
    return f'const MODULE = "{base64.b64encode(packed).decode()}";\n'


def row(line, kind):
    """Returns a line of a table of a document as one of a page."""
    cells = [re.sub("`(.*?)`", r"<code>\1</code>", html.escape(it.strip())) for it in line.strip().strip("|").split("|")]
    return "<tr>" + "".join(f"<{kind}>{it}</{kind}>" for it in cells) + "</tr>\n"


def table(lines):
    head, _, *rows = lines.splitlines()
    return "<table>\n" + row(head, "th") + "".join(row(it, "td") for it in rows) + "</table>"


def legend(told):
    """Returns the tables of the section of docs/LOOK.md that has this title; after a comma, of those that begin with a word."""
    title, _, first = told.partition(", ")
    section = re.search(rf"^## {re.escape(title)}\n(.*?)(?=^## |\Z)", read(LOOK), re.M | re.S)
    tables = re.findall(rf"^\| {first}.*\n(?:^\|.*\n)+", section[1], re.M) if section else []
    if not tables:
        sys.exit(f"pack.py: docs/LOOK.md has no table under: {told}")
    return "\n".join(map(table, tables))


def whole(made):
    """Returns the page; a script that is made is taken from there, all else from the files next to this one."""
    source = lambda name: made[name]() if name in made else read(os.path.join(HERE, name))
    page = re.sub("<!-- legend: (.*) -->", lambda it: legend(it[1]), read(os.path.join(HERE, "index.html")))
    page = re.sub(r'<link rel="stylesheet" href="([\w.]+)">', lambda it: f"<style>\n{source(it[1])}</style>", page)
    return re.sub(r'<script src="([\w.]+)"></script>', lambda it: f"<script>\n{source(it[1])}</script>", page)


def main():
    wasm, to = sys.argv[1:]
    page = whole({"module.js": lambda: module(wasm), "examples.js": examples})
    with open(to, "w") as file:
        file.write(page)
    print(f"page: {os.path.getsize(to)} bytes at {to}")


if __name__ == "__main__":
    main()
