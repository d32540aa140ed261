#!/usr/bin/env python3
"""Spells the definitions and lemmas of this repository in snake case: once, right after port.py, at the top of the checkout.

Each name that a file of specs/ or a law of proofs/ declares loses its inner capitals and its dashes: isBook is is_book,
first-most is first_most. Types, records, modules and constructors keep their capitals, and what Rattle makes keeps its
dashes. A name whose new spelling another declared name has is given in APART. `ground` is a tactic's name, which a clause
and a definition may not have: a strike's field and the variables of that name are `on_ground`.
Functions of src/, exported C names, strings, inputs and outputs are not touched.
"""

import os
import re
import sys

# Names that would fall together with another one of a file: a lemma gets `_lem`, as one with its function's name does.
APART = {
    "isOpen": "is_class_open",
    "bits-after": "bits_after_lem",
    "book-words": "book_words_lem",
    "by-program": "by_program_lem",
    "class-opened": "class_opened_lem",
    "ground-from": "ground_from_lem",
    "half-end": "half_end_lem",
    "half-price": "half_price_lem",
    "half-top": "half_top_lem",
    "in-month": "in_month_lem",
    "is-amid": "is_amid_lem",
    "is-book": "is_book_lem",
    "is-new": "is_new_lem",
    "month-set": "month_set_lem",
    "numbers-kept": "numbers_kept_lem",
    "passes-range": "passes_range_lem",
    "same-words": "same_words_lem",
    "series-words": "series_words_lem",
    "strike-from": "strike_from_lem",
    "strikes-among": "strikes_among_lem",
    "strikes-said": "strikes_said_lem",
    "wing-base": "wing_base_lem",
    "first_one": "first_one_lem",
    "moved_down": "moved_down_lem",
}

TOKEN = re.compile(r'[^\s(){}\[\].;,@"«»|`]+')
WORDS = r"(?:abbrev|unfoldable|pub|opaque|data|record|ruleset|module|infixr?|infixl?)"
DECLARED = re.compile(rf"^\s*(?:{WORDS} +)*([^\s:(){{}}\[\].;,]+)(?: *(?:[({{][^:]*?[)}}]))* *:(?= |$)")
CAMEL = re.compile(r"[a-z][a-z0-9]*(?:[A-Z][a-z0-9]*)+'*")
RULES = re.compile(r"^\s*(?:pub +)?(?:ruleset|abbrev) +([^\s:=]+)")
PARTS = re.compile(r'--[^\n]*|"(?:[^"\\\n]|\\.)*"')


def files(root, *endings):
    for folder, dirs, names in os.walk(root):
        dirs[:] = sorted(d for d in dirs if d not in ("out", "target", ".git"))
        for name in sorted(names):
            if name.endswith(endings):
                yield os.path.join(folder, name)


def read(path):
    with open(path, encoding="utf-8") as it:
        return it.read()


def is_of_a_function(path):
    return re.search(r"/proofs/.*/(Proof|Answers|Invariants)\.antt$", path)


def snake(name):
    name = re.sub(r"(?<=[a-z0-9])([A-Z])", lambda m: "_" + m[1].lower(), name)
    return name.replace("-", "_")


def declared(texts):
    """The names that laws and definitions declare, and those of them that are fields of records."""
    names, fields = set(), set()
    for path, text in texts.items():
        if not path.endswith(".antt") or is_of_a_function(path):
            continue
        # Variables and parameters too.
        names |= {it for it in TOKEN.findall(PARTS.sub("", text)) if CAMEL.fullmatch(it)}
        inside = None
        for line in text.split("\n"):
            if line.lstrip().startswith("--") or re.match(r"\s*(pub )?use ", line):
                continue
            indent = len(line) - len(line.lstrip())
            if line.strip() and inside is not None and indent <= inside:
                inside = None
            found = DECLARED.match(line) or RULES.match(line)
            if found and not re.match(r"[→λ=|]", found[1]):
                names.add(found[1])
                if inside is not None:
                    fields.add(found[1])
            if re.match(r"\s*(pub )?(record|data) ", line):
                inside = indent
    return names, fields


def main():
    if not os.path.exists("crates.txt"):
        sys.exit("run it at the top of the checkout")
    texts = {path: read(path) for path in files("crates", ".antt", ".rt", ".edit")}
    names, fields = declared(texts)
    if "isBook" not in names:
        sys.exit("the names are spelled already")
    table = {}
    for name in names:
        if name in APART or name[0].islower() and (re.search("[a-z0-9][A-Z]", name) or "-" in name):
            table[name] = APART.get(name, snake(name))
    uses = {}
    for path, text in texts.items():
        code = PARTS.sub("", text)
        for token in set(TOKEN.findall(code)):
            uses.setdefault(token, set()).add(path)
    if "--clashes" in sys.argv:
        groups = {}
        for old, new in table.items():
            groups.setdefault(new, set()).add(old)
        for new, olds in sorted(groups.items()):
            others = olds | ({new} if new in uses else set())
            if len(others) > 1:
                each = [uses.get(o, set()) for o in others]
                both = [p for p in set().union(*each) if sum(p in u for u in each) > 1]
                if both:
                    print(new, sorted(others), [p.replace("crates/", "") for p in both][:4])
        return
    for path, text in texts.items():
        of_function, is_antt = is_of_a_function(path), path.endswith(".antt")
        said = []

        def turn(token, before, in_comment):
            if token == "ground" and is_antt and not in_comment:
                return token if before.endswith("args.") else "on_ground"
            new = table.get(token)
            if new is None:
                return token
            if "-" in token:
                if in_comment or not is_antt and not before_is_use(before):
                    return token
                if of_function and before.endswith(".") and token not in fields:
                    return token
            return new

        def before_is_use(before):
            line = before[before.rfind("\n") + 1 :]
            return "ghost use" in line

        def code(part):
            return TOKEN.sub(lambda m: turn(m[0], part[: m.start()], False), part)

        def comment(part):
            return re.sub(r"[A-Za-z][\w'-]*", lambda m: turn(m[0], "", True), part)

        at = 0
        pattern = PARTS if is_antt else re.compile(r"//[^\n]*|\"(?:[^\"\\\n]|\\.)*\"")
        if path.endswith(".edit"):
            pattern = re.compile(r"(?m)^(?!old:|new:)[^\n]*$")
        for part in pattern.finditer(text):
            said.append(code(text[at : part.start()]))
            said.append(part[0] if part[0].startswith('"') else comment(part[0]))
            at = part.end()
        said.append(code(text[at:]))
        new = "".join(said)
        if new != text:
            with open(path, "w", encoding="utf-8") as it:
                it.write(new)
    # port.py turned some names of the crates, which the pages still have.
    say = lambda it: table.get(it, snake(it) if CAMEL.fullmatch(it) and snake(it) in uses else it)
    for path in ["README.md", *files("docs", ".md")]:
        text = read(path)
        new = re.sub(r"`[^`\n]*`", lambda span: TOKEN.sub(lambda m: say(m[0]), span[0]), text)
        if new != text:
            with open(path, "w", encoding="utf-8") as it:
                it.write(new)


main()
