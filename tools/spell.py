#!/usr/bin/env python3
"""Brings the repository's own definitions and lemmas to snake case, as today's Rattle spells them.

usage: tools/spell.py        at the top of the repository, once, right after the toolchain's port.py

The names are those that specs/ and proofs/ define in camel case: diceOf becomes dice_of, switched-getD switched-get_or.
Types and modules keep their capitals. They are turned in .antt files, in the clauses of .rt files, and in the edits of
must-fail/ and attacks/, where the toolchain's script left them. It stops where two names would fall together.
"""

import os
import re
import sys

TOKEN = re.compile(r"[^\s(){}\[\],;:.|]+")
DEFINED = re.compile(r"^\s*(?:(?:abbrev|unfoldable|pub|data|record|ruleset)\s+)*([^\s:(){}]+)\s*:(?!=)")
CAMEL = re.compile(r"[a-z0-9][A-Z]")
LIBRARY = {"getD": "get_or"}


def files(ends, tops):
    for top in tops:
        for folder, _, names in os.walk(top):
            if "/out" not in folder:
                for name in sorted(names):
                    if name.endswith(ends):
                        yield os.path.join(folder, name)


def read(path):
    with open(path, encoding="utf-8") as file:
        return file.read()


def respelled(name):
    """Each part between dashes: the library's words by their new names, others in snake case."""
    def part(word):
        if word in LIBRARY:
            return LIBRARY[word]
        return re.sub(r"(?<=[a-z0-9])([A-Z])", lambda m: "_" + m.group(1).lower(), word)
    return "-".join(p if p[:1].isupper() else part(p) for p in name.split("-"))


def main():
    if len(sys.argv) != 1 or not os.path.isfile("crates.txt"):
        print(__doc__.strip(), file=sys.stderr)
        return 2
    defined = set()
    for path in files(".antt", ["crates"]):
        for line in read(path).splitlines():
            found = DEFINED.match(line)
            if found:
                defined.add(found.group(1))
    turned = {n: respelled(n) for n in defined if CAMEL.search(n) and not n[0].isupper()}
    said = [set(TOKEN.findall(read(path))) for path in files((".antt", ".rt"), ["crates"])]
    together = sorted(n for n, new in turned.items()
                      if list(turned.values()).count(new) > 1 or new in defined and any(n in s and new in s for s in said))
    if together:
        print("spell: these fall together with another name: " + " ".join(together), file=sys.stderr)
        return 1

    def token(match):
        return turned.get(match.group(0), match.group(0))

    for path in files((".antt", ".rt", ".edit"), ["crates", "attacks"]):
        text = read(path)
        if path.endswith(".antt"):
            new = TOKEN.sub(token, text)
        else:
            # Of code, clauses and ghost items alone name definitions, and nothing else there is in camel case.
            new = TOKEN.sub(token, text.replace("Rattle\u00b7", "Rattle."))
        if new != text:
            with open(path, "w", encoding="utf-8") as file:
                file.write(new)
    print(f"spell: {len(turned)} names")
    return 0


if __name__ == "__main__":
    sys.exit(main())
