#!/usr/bin/env python3
"""Brings the repository's own definitions and lemmas to snake case: tools/spelling.py [--dry] in the repository, once, behind port.py.

Turned are names that specs/ and proofs/ declare: `first-append` becomes first_append, `outcomeOf` becomes outcome_of. Types and modules keep
their capitals, the library's names their dashes. In .rt files only clauses and ghost imports have such names. Comments and pages are turned
between backticks.
"""
import collections
import os
import re
import sys

NAME = r"[A-Za-z_][\w'-]*"
TOKEN = re.compile(r"(?<![\w'₀-₉-])[A-Za-z_](?:[\w'₀-₉]|-(?=[\w]))*")
SIGNATURE = re.compile(r"^\s*(?:(?:pub|abbrev|unfoldable|opaque|private)\s+)*(" + NAME + r")(?:\s*\{[^}]*\})*\s*:(?![:=])\s")
USE = re.compile(r"\buse\s+([\w·'+-]+(?:\.[\w·'+-]+)*)(?:\.\{([^}]*)\})?(?:\s+as\s+(" + NAME + r"))?")
CRATES = sorted(c for c in os.listdir("crates") if os.path.isdir(os.path.join("crates", c, "src")))
OWN_MODULE = re.compile(r"^Rattle\.(" + "|".join(CRATES) + r")\.(specs|proofs)\b")
MADE = re.compile(r"\.(Tie|Statement|Goals|Given|TheVariants)$|\.specs\.declared\.")

# Where two names of one scope would fall together, the lemma gets a name of its own.
APART = {
    "no-report": "report_none", "report-from": "told_report_from", "reading-from": "told_reading_from", "parameter-byte": "parameter_byte_at",
    "line-most": "line_most_holds", "has-sign": "sign_held", "bus-rows": "bus_rows_hold", "found-values": "values_found", "reading-back": "read_back_alike",
    "packed-by": "packed_from", "not-held": "none_held", "bus-edit": "bus_edit_tells", "field-rows": "field_rows_hold", "reaching-bus": "bus_reached",
    "found-place": "place_is_found", "found-text": "text_found", "bank-tested": "bank_is_tested", "first-wide": "first_is_wide",
    "new-records": "records_of_new", "old-records": "records_of_old", "data-of": "data_is", "sum-of": "sum_is", "kind-of": "kind_found",
    "none-behind": "none_stand_behind", "record-in": "record_lies_in", "by-kind": "by_its_kind", "by-operands": "by_its_operands",
    "of-dump": "dump_judged", "of-short": "short_judged", "any-bytes": "bytes_of_any",
}
# The same for a lemma that is in snake case already, in a part of the repository.
APART_IN = {"crates/edit_lists/proofs/": ("same_bytes", "bytes_alike"), "crates/exports/proofs/Lookups.antt": ("place_byte", "place_byte_at")}


def walk(top, endings):
    for folder, dirs, files in os.walk(top):
        dirs[:] = sorted(d for d in dirs if d not in ("out", ".git", "target", "build"))
        for f in sorted(files):
            if f.endswith(endings):
                yield os.path.join(folder, f)


def read(path):
    with open(path, encoding="utf-8") as f:
        return f.read()


def snake(name):
    if name in APART:
        return APART[name]
    return re.sub(r"(?<=[a-z0-9])([A-Z])", lambda m: "_" + m.group(1).lower(), name.replace("-", "_"))


def declared(text):
    """Names that a file declares, by the lines of their signatures."""
    out = set()
    for line in text.splitlines():
        m = SIGNATURE.match(line)
        if m:
            out.add(m.group(1))
    return out


def imports(text):
    """(module, name, alias) of each import, and (module, None, alias) of each module under a name."""
    for m in USE.finditer(text):
        if m.group(2) is None:
            yield m.group(1), None, m.group(3)
            continue
        for item in m.group(2).replace("\n", " ").split(","):
            words = item.split()
            if words:
                yield m.group(1), words[0], words[2] if len(words) == 3 and words[1] == "as" else None


def by_hand(path):
    return path.endswith("/Proof.antt")


def main(dry):
    own = collections.defaultdict(set)
    texts = {p: read(p) for p in walk("crates", (".antt", ".rt"))}
    stood = dict(texts)
    for path in texts:
        for part, (old, new) in APART_IN.items():
            if path.startswith(part):
                texts[path] = TOKEN.sub(lambda m: new if m.group(0) == old else m.group(0), texts[path])
    for path, text in texts.items():
        if path.endswith(".antt") and not by_hand(path):
            for name in declared(text):
                own[name].add(path)
    turned = {n for n in own if n[0].islower() and snake(n) != n}
    # Names under which specs/ and proofs/ pass others on.
    for path, text in texts.items():
        for m in re.finditer(r"\bpub use\s+[\w.'-]+\.\{([^}]*)\}", text):
            words = [item.split() for item in m.group(1).split(",")]
            turned |= {w[2] for w in words if len(w) == 3 and w[1] == "as" and w[2][0].islower() and snake(w[2]) != w[2]}
    clashes = 0
    for path, text in texts.items():
        # The library's names of this file, which stay; aliases of own names, which go along.
        kept, aliases = set(), set()
        for module, name, alias in imports(text):
            if name is None:
                continue
            if alias and alias[0].islower():
                aliases.add(alias)
            elif not OWN_MODULE.match(module) or MADE.search(module):
                kept.add(name)
        here = (turned | {a for a in aliases if snake(a) != a}) - kept
        if path.endswith(".rt"):
            new = turn_rust(text, here)
        else:
            new = turn_proof(text, here, by_hand(path))
        # Two names of one file that fall together.
        before = collections.defaultdict(set)
        for m in TOKEN.finditer(code(text, path)):
            t = m.group(0)
            before[snake(t) if t in here else t].add(t)
        for name, olds in sorted(before.items()):
            if len(olds) > 1:
                clashes += 1
                print(f"falls together in {path}: {sorted(olds)} -> {name}")
        if new != stood[path] and not dry:
            with open(path, "w", encoding="utf-8") as f:
                f.write(new)
    pages = [p for p in walk("docs", (".md",)) if not p.startswith("docs/changes/")] + ["README.md"]
    for path in pages:
        text = read(path)
        new = re.sub(r"`[^`\n]*`", lambda m: TOKEN.sub(lambda t: snake(t.group(0)) if t.group(0) in turned else t.group(0), m.group(0)), text)
        if new != text and not dry:
            with open(path, "w", encoding="utf-8") as f:
                f.write(new)
    print(f"spelling: {len(turned)} names, {clashes} that fall together in a file")


def code(text, path):
    mark = "//" if path.endswith(".rt") else "--"
    return "\n".join(re.sub(r"(^|\s)" + mark + r".*", "", line) for line in text.splitlines())


def turn_line(line, mark, turn):
    m = re.search(r"(^|\s)" + mark, line)
    at = m.start() if m else len(line)
    comment = re.sub(r"`[^`]*`", lambda b: turn(b.group(0)), line[at:])
    return turn(line[:at]) + comment


def turn_proof(text, here, hand):
    def turn(part):
        def one(m):
            t, before = m.group(0), part[: m.start()]
            # What Rattle makes for a function keeps its labels.
            if hand and re.search(r"\b(tie|goal)\.$", before):
                return t
            return snake(t) if t in here else t
        return TOKEN.sub(one, part)
    return "\n".join(turn_line(line, "--", turn) for line in text.split("\n"))


def turn_rust(text, here):
    def turn(part):
        pieces = re.split(r'("(?:[^"\\]|\\.)*")', part)
        return "".join(p if i % 2 else TOKEN.sub(lambda m: snake(m.group(0)) if m.group(0) in here else m.group(0), p) for i, p in enumerate(pieces))
    return "\n".join(turn_line(line, "//", turn) for line in text.split("\n"))


if __name__ == "__main__":
    main("--dry" in sys.argv[1:])
