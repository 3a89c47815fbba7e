#!/usr/bin/env python3
"""Builds docs/playground.html from the sources in this folder, those in bindings/js and the WebAssembly module: one self-contained file.

    playground/build.py [--wasm dist/wasm/um.wasm] [OUT.html]

Each JavaScript module becomes a function that returns its exports, without comments, after the modules that it imports. The resulting
script and the WebAssembly module are embedded with gzip and base85. Needs only the standard library.
"""
import argparse
import base64
import gzip
import hashlib
import pathlib
import re

HERE = pathlib.Path(__file__).resolve().parent
MOST = 150_000
IMPORT = re.compile(r'^import \{([^}]*)\} from "([^"]+)";\n', re.M)
PASSED_ON = re.compile(r'^export \{ ([^}]*) \} from "([^"]+)";\n', re.M)
COMMENT = re.compile(r"^ *(//[^\n]*|/\*\*.*?\*/)\n", re.M | re.S)
EXPORT = re.compile(r"^export (?:const|class) ([\w$]+)", re.M)


def packed(octets):
    text = base64.b85encode(gzip.compress(octets, 9, mtime=0)).decode()
    if "<!--" in text:
        raise SystemExit("base85 with the begin of a comment, in which a script does not end; change a source")
    return text


def named(script):
    """A script as the page's Content-Security-Policy names it."""
    return f"'sha256-{base64.b64encode(hashlib.sha256(script.encode()).digest()).decode()}'"


def bundled(path, names):
    """A module and its imports as JavaScript; `names` holds the modules already written."""
    if path in names:
        return ""
    text = path.read_text(encoding="utf-8")
    passed_on = PASSED_ON.findall(text)
    before = "".join(bundled((path.parent / found[1]).resolve(), names) for found in IMPORT.findall(text) + passed_on)
    names[path] = f"m{len(names)}"
    body = IMPORT.sub(lambda found: f"const {{{found[1]}}} = {names[(path.parent / found[2]).resolve()]};\n", PASSED_ON.sub("", text))
    exports = EXPORT.findall(body)
    for given, module in passed_on:
        pairs = [name.split(" as ") for name in given.split(", ")]
        exports += [f"{pair[-1]}: {names[(path.parent / module).resolve()]}.{pair[0]}" for pair in pairs]
    body = COMMENT.sub("", re.sub(r"^export ", "", body, flags=re.M))
    if not exports:
        return f"{before}{body}"
    return f"{before}const {names[path]} = (() => {{\n{body}return {{ {', '.join(exports)} }};\n}})();\n"


def main():
    asked = argparse.ArgumentParser(description="Builds docs/playground.html.")
    asked.add_argument("--wasm", type=pathlib.Path, default=HERE.parent / "dist" / "wasm" / "um.wasm")
    asked.add_argument("out", nargs="?", type=pathlib.Path, default=HERE.parent / "docs" / "playground.html")
    said = asked.parse_args()
    page = (HERE / "page.html").read_text(encoding="utf-8")
    code = bundled(HERE / "main.mjs", {})
    loader = re.search(r'<script type="module">(.*?)</script>', page, re.S).group(1)
    for mark, text in (
        ("/*STYLE*/", (HERE / "style.css").read_text(encoding="utf-8").strip()),
        ("/*WASM*/", packed(said.wasm.read_bytes())),
        ("/*CODE*/", packed(code.encode())),
        ("/*SCRIPTS*/", f"{named(loader)} {named(code)}"),
    ):
        page = page.replace(mark, text)
    size = len(page.encode())
    said.out.write_text(page, encoding="utf-8")
    print(f"{said.out}: {size} octets")
    if size > MOST:
        raise SystemExit(f"the page has more than {MOST} octets")


if __name__ == "__main__":
    main()
