#!/usr/bin/env python3
"""Brings the names of definitions and lemmas to snake case, in antt, clauses, edits and pages. Run once, at the top."""
import glob
import re
import subprocess

# Lemmas whose snake name is that of the definition which they are about.
LEMMAS = "bare-size bodied-size byte-given byte-taken drive-at eight-at four-at given-at given-place in-sequence " \
    "line-size mode-fits next-inside own-tape own-at room-asked settled-by taken-inside went-in went-out " \
    "block_room code_fits given_inside in_order in_step is_block step_by taken_at two_at".split()
# Constructors beside a definition of their name, in whose types it stands.
APART = {"no-event": "no_events", "end-kind": "one_end"}
NAME = r"[^\s(){}\[\],.;:]+"
SIGNATURE = re.compile(rf"^(\s*)((?:abbrev |unfoldable |pub |ruleset |record |data )*)({NAME})\s*(?:\{{[^}}]*\}}\s*)?[:=]\s")
ANTT = sorted(glob.glob("crates/*/specs/**/*.antt", recursive=True) + glob.glob("crates/*/proofs/**/*.antt", recursive=True))


def snake(name):
    return re.sub(r"(?<=[a-z0-9])([A-Z])", lambda m: "_" + m.group(1).lower(), name).replace("-", "_")


def read(path):
    with open(path, encoding="utf-8") as f:
        return f.read()


def declared(text):
    """The names that a file declares, at its top level, in a record or below a `where`; and of these the fields."""
    names, fields, members = set(), set(), False
    for line in text.split("\n"):
        if re.match(r"\S", line) and not line.startswith("--"):
            members = re.match(r"(abbrev |unfoldable )?(pub )?(record|data)\b.*\bwhere\s*$", line) is not None
        found = SIGNATURE.match(line + " ")
        if not found or found.group(3) in ("use", "let", "in", "where", "--", "module", "unfolding"):
            continue
        if re.match(rf"\s*[^:=]*=", line) and "ruleset" not in found.group(2) and not re.search(r":", line.split("=")[0]):
            continue
        names.add(found.group(3))
        if found.group(1) and members and found.group(2).startswith("pub"):
            fields.add(found.group(3))
    return names, fields


def plan():
    """Old name to new, where it is one everywhere; and for each lemma of LEMMAS the files that speak of it."""
    everywhere, of_lemma = {}, {}
    own, fields, tops = set(), set(), {}
    for path in ANTT:
        if path.endswith("/Proof.antt"):
            continue
        names, inside = declared(read(path))
        own |= names
        fields |= inside
        for name in names - inside:
            tops.setdefault(name, []).append(path)
    for name in own:
        if name in LEMMAS:
            continue
        if name[0].islower() and (re.search(r"[a-z0-9][A-Z]", name) or "-" in name):
            everywhere[name] = APART.get(name, snake(name))
    for name in LEMMAS:
        for path in ANTT:
            text = read(path)
            if path in tops.get(name, []) or re.search(rf"(?m)^use Rattle\.[\w.]*proofs\.[\w.]*\{{(?:[^}}]*[ {{])?{re.escape(name)}[,}}]", text):
                of_lemma.setdefault(path, {})[name] = snake(name) + "_lem"
    # the same word as a field keeps the plain name
    for name in LEMMAS:
        if name in fields and "-" in name:
            everywhere[name] = snake(name)
    return everywhere, of_lemma


def turned(text, names, dashes):
    word = r"[^\s(){}\[\],.;`]+" if dashes else r"[A-Za-z0-9_]+"
    return re.sub(word, lambda m: names.get(m.group(0), m.group(0)), text)


def main():
    everywhere, of_lemma = plan()
    clauses = {a: b for a, b in everywhere.items() if "-" not in a}
    work = [(p, {**everywhere, **of_lemma.get(p, {})}, True) for p in ANTT]
    work += [(p, clauses, False) for p in sorted(glob.glob("crates/*/src/**/*.rt", recursive=True))]
    work += [(p, clauses, False) for p in sorted(glob.glob("crates/*/must-fail/*.edit"))]
    work += [(p, clauses, False) for p in ["README.md"] + sorted(glob.glob("docs/*.md") + glob.glob("docs/changes/*.md"))]
    for path, names, dashes in work:
        old = read(path)
        new = turned(old, names, dashes)
        if new != old:
            with open(path, "w", encoding="utf-8") as f:
                f.write(new)
    for crate in sorted(glob.glob("crates/*/src")):
        subprocess.run(["rt", "fmt"], cwd=crate[:-4], stdout=subprocess.DEVNULL, check=False)
    print(f"respell: {len(everywhere)} names, and {len(LEMMAS)} lemmas that stand beside a definition of their name")


if __name__ == "__main__":
    main()
