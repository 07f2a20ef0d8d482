#!/usr/bin/env python3
"""Compares the definitions that the documents quote with the files that they are quoted from.

    docs/quotes.py [--update]

A quote is a block fenced by ```. Its first line is a comment with the file and the names that are quoted:

    -- crates/commit_log/specs/Log.antt: requests_of IsLegal

A name is that of a definition in a file of specs/, or that of a function, a struct, an enum or a trait in a file of src/. A
definition is quoted up to the next blank line, and a function up to its body. If a quote is stale, the exit status is 1.
With --update stale quotes are rewritten instead.
"""
import argparse
import pathlib
import re
import sys
import textwrap

HERE = pathlib.Path(__file__).resolve().parent
TOP = HERE.parent
QUOTE = re.compile(r"^```\w*\n((?:--|//) (crates/\S+): ([^\n]+)\n)(.*?)^```$", re.MULTILINE | re.DOTALL)
DEFINITION = r"^( *)(?:pub |abbrev |unfoldable |data |record )+{name}\b.*?(?=^\s*$|\Z)"
FUNCTION = r"^( *)pub fn {name}\b.*?(?=^\1\{{|\{{\}}?$)"
TYPE = r"^( *)pub (?:struct|enum|trait) {name}\b.*?^\1\}}\n"


class Missing(Exception):
    """The quoted file or name does not exist."""


def quoted(file, name):
    """Returns the text that this file has under this name. Raises Missing if there is none."""
    path = TOP / file
    if not path.is_file():
        raise Missing(f"there is no file {file}")
    forms = [DEFINITION] if path.suffix == ".antt" else [FUNCTION, TYPE]
    for form in forms:
        found = re.search(form.format(name=re.escape(name)), path.read_text(), re.MULTILINE | re.DOTALL)
        if found:
            return textwrap.dedent(found[0]).rstrip() + "\n"
    raise Missing(f"{file} does not contain {name}")


def main():
    parser = argparse.ArgumentParser(description="Compares the definitions that the documents quote with their files.")
    parser.add_argument("--update", action="store_true", help="rewrite stale quotes")
    update = parser.parse_args().update
    stale, count = [], 0
    for document in sorted(HERE.glob("*.md")):
        text = document.read_text()

        def anew(quote):
            nonlocal count
            count += 1
            line, file, names = quote[1], quote[2], quote[3].split()
            try:
                body = "\n".join(quoted(file, name) for name in names)
            except Missing as missing:
                sys.exit(f"quotes: docs/{document.name}: {missing}")
            if body != quote[4]:
                stale.append(f"docs/{document.name}: {file}: {' '.join(names)}")
            return quote[0].replace(line + quote[4], line + body)

        written = QUOTE.sub(anew, text)
        if update and written != text:
            document.write_text(written)
    for what in stale:
        print(f"quotes: {'rewritten' if update else 'stale'}: {what}")
    if stale and not update:
        sys.exit("quotes: look at what has changed, edit the text around the quotes, and run docs/quotes.py --update")
    print(f"quotes: {count} compared")


if __name__ == "__main__":
    main()
