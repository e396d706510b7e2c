#!/usr/bin/env python3
"""Writes a page of examples/ as one file, with dnstext.js and the module in it: a browser opens it from a file: URL.

usage: js/embed.py js/examples/zone.html MODULE.wasm > page.html
"""
import base64
import pathlib
import sys

IMPORT = "'../dnstext.js'"
SCRIPT = '<script type="module">\n'


def url_of(kind, octets):
    return f"data:{kind};base64,{base64.b64encode(octets).decode()}"


def main():
    page, module = map(pathlib.Path, sys.argv[1:])
    text = page.read_text(encoding="utf-8")
    if text.count(IMPORT) != 1 or text.count(SCRIPT) != 1:
        sys.exit(f"embed: {page}: no script that imports {IMPORT}")
    glue = pathlib.Path(__file__).resolve().parent / "dnstext.js"
    octets = base64.b64encode(module.read_bytes()).decode()
    line = f"globalThis.dnstextModule = Uint8Array.from(atob('{octets}'), it => it.charCodeAt(0));\n"
    text = text.replace(IMPORT, f"'{url_of('text/javascript', glue.read_bytes())}'").replace(SCRIPT, SCRIPT + line)
    sys.stdout.write(text)


if __name__ == "__main__":
    main()
