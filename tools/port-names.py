#!/usr/bin/env python3
"""Brings the repository's own names in definitions, laws and clauses to the spelling of today's Rattle.

usage: tools/port-names.py        at the top of a checkout that the kit's port.py has just turned

Words are in snake case: listRows -> list_rows, bound-is-least -> bound_is_least. Types and
modules keep their capitals. Names of the kit, names that Rattle makes for a proof, functions of src/,
strings and comments keep their spelling, but for a name between back quotes. It was run once; a second
run changes nothing. It stops, and writes nothing, where two names of a file would become one.
"""

import os
import re
import sys

WORD = r"[^\s(){}.;,@\"«»\[\]\\`]+"
TOKEN = re.compile(r"--[^\n]*|\"(?:[^\"\\]|\\.)*\"|«[^»]*»|" + WORD)
# Laws that would get the name of the definition that they are about.
LAWS = {
    it: it.replace("-", "_") + "_lem"
    for it in (
        "column-cost column-elements column-of constants-from derivative-at "
        "first_above hard-word inverses_right is-list is-plan is-yes level-fits list-text matrix-cost matrix-score "
        "none_above passes_at products-right refused-at sizes-fit totals-of verdict-of without-column zeros-before"
    ).split()
}
GIVEN = re.compile(r"^\s*(?:(?:pub|abbrev|unfoldable|opaque|record|data) )*(" + WORD + r")(?: [({].*)?\s*:(?:\s|$)")
OF_OTHERS = re.compile(r"^use ((?!Rattle\.)|Rattle\.std\.|Rattle\.core\.)\S*?\.\{(.*)\}", re.M)


def read(path):
    with open(path, encoding="utf-8", newline="") as it:
        return it.read()


def files(end):
    for folder, dirs, names in os.walk("crates"):
        dirs[:] = sorted(d for d in dirs if d != "out")
        yield from (os.path.join(folder, it) for it in sorted(names) if it.endswith(end))


def snake(word):
    word = word.replace("-", "_")
    word = re.sub(r"(?<=[a-z0-9])(?=[A-Z])", "_", word)
    word = re.sub(r"(?<=[A-Z])(?=[A-Z][a-z])", "_", word)
    return word.lower()


def is_own(token):
    """Whether the token is a word that may need another spelling: it begins with a small letter and has a dash or a capital."""
    return re.match(r"[a-zα-ωφμ]", token) and re.fullmatch(r"[\w'₀-₉-]+", token) and re.search(r"[A-Z]|\w-\w", token)


def of_a_function(path):
    """Whether the file is the proof of a function: names that Rattle makes stand in it."""
    return path.endswith("/Proof.antt")


def main():
    texts = {it: read(it) for it in files(".antt")}
    sources = {it: read(it) for it in files(".rt")}
    given, fields, foreign = set(), set(), set()
    imported = lambda text: {it.split(" as ")[0].strip() for _, all in OF_OTHERS.findall(text) for it in all.split(",")}
    for path, text in texts.items():
        foreign |= imported(text)
        if of_a_function(path):
            continue
        for record in re.findall(r"(?ms)^ *pub record .*?(?=\n\n|\Z)", text):
            fields.update(re.findall(r"(?m)^ +pub (" + WORD + r") :", record))
        for line in text.split("\n"):
            if line.lstrip().startswith("--"):
                continue
            here = GIVEN.match(line)
            if here:
                given.add(here[1])
    turned = {}

    def turn(token, here=()):
        if token in here or token in foreign and token not in fields or not is_own(token):
            return token
        if token not in turned:
            turned[token] = snake(token)
        return turned[token]

    out, wrong = {}, []
    for path, text in texts.items():
        seen = {}
        proof = of_a_function(path)
        here = imported(text)

        def each(match):
            token = match[0]
            if token.startswith("--"):
                return re.sub(r"`([^`]+)`", lambda it: "`" + turn(it[1]) + "`" if it[1] in given else it[0], token)
            if token[0] in "\"«" or proof and token not in given:
                return token
            line = text[text.rfind("\n", 0, match.start()) + 1 : match.start()]
            if re.search(r"(?:^|[\s(])(?:tie|search-lts)\.$", line) or re.search(r"Rattle\.[\w.+·-]*$", line) and text[match.end() : match.end() + 1] in (".", "\n") and "{" not in line:
                return token
            if line.endswith(".") and token not in (fields if proof else given):
                return token
            law = token in LAWS and not (proof and line.endswith("."))
            new = LAWS[token] if law else turn(token, here)
            if seen.setdefault(new, token) != token:
                wrong.append(f"{path}: {seen[new]} and {token} would both be {new}")
            return new

        out[path] = TOKEN.sub(each, text)
    clause = re.compile(r"^(\s*(?:ghost use|ghost|requires|ensures|invariant)\b.*)$", re.M)
    for path, text in sources.items():
        out[path] = clause.sub(lambda line: TOKEN.sub(lambda it: turn(it[0]) if it[0][0] != "\"" else it[0], line[1]), text)
    every = {}
    for old in given:
        every.setdefault(LAWS.get(old) or turn(old), set()).add(old)
    for new, olds in sorted(every.items()):
        if len(olds) > 1:
            print(f"look: {', '.join(sorted(olds))} are now {new}", file=sys.stderr)
    if wrong:
        print("\n".join(wrong), file=sys.stderr)
        return 1
    for path, text in out.items():
        if text != texts.get(path, sources.get(path)):
            with open(path, "w", encoding="utf-8", newline="") as it:
                it.write(text)
    if os.environ.get("PORT_NAMES"):
        with open(os.environ["PORT_NAMES"], "w", encoding="utf-8") as it:
            it.writelines(f"{old}\t{new}\n" for old, new in sorted((turned | LAWS).items()) if old != new)
    print(f"port-names: {sum(a != b for a, b in turned.items())} names")
    return 0


if __name__ == "__main__":
    raise SystemExit(main())
