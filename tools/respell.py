#!/usr/bin/env python3
"""Brings the names of this repository's definitions and lemmas to snake case: frontVerdict and put-ended become
front_verdict and put_ended. It was run once at the top, after the kit's port.py (docs/PORT.md), and not again: what
Rattle names, and what APART has turned, it would turn once more.

What turns: in .antt files each name that the repository itself declares, in code and, where it is no plain word, in
comments; in .rt files the same names inside clauses and `ghost use` lines, and in comments. What stays: the kit's
names, by what `use` lines take from modules that aren't the repository's, and what Rattle makes for a function's
proof (tie.Need-.., rows of a context). With --list it prints each old name beside its new one and changes nothing.
"""
import os
import re
import sys

WORD = re.compile(r"[^\s(){}.;,@\"«»]+")
QUIET = re.compile(r'"(?:[^"\\\n]|\\.)*"|(?<![^\s(){}.;,@"«»])--[^\n]*|\{-.*?-\}', re.S)
USE = re.compile(r"^\s*(?:pub )?(?:ghost )?use\s+([^;\n{]+?)(?:\.\{([^}]*)\})?(?:\s+as\s+\S+)?\s*;?\s*$", re.M)
CAMEL = re.compile(r"^[a-z][a-z0-9]*(?:[A-Z][A-Za-z0-9]*)+[₀-₉']*$")
KEBAB = re.compile(r"^[A-Za-z0-9_₀-₉]*[A-Za-z][A-Za-z0-9_₀-₉]*(?:-[A-Za-z0-9_₀-₉]+)+'*$")

# names that would fall together with another one, or with a function of src/, and what they are called instead
APART = {
    "all-zero": "all_zero_lem",
    "changed-at": "changed_at_lem",
    "count-empty": "counts_empty",
    "count-fits": "count_fits_lem",
    "count-full": "counts_full",
    "event-fits": "event_fitting",
    "event-of": "event_of_lem",
    "events-on": "events_on_lem",
    "filled-from": "filled_from_lem",
    "fresh-state": "fresh_state_lem",
    "head-fits": "head_fits_lem",
    "header-bytes": "header_bytes_lem",
    "header-fits": "header_fits_lem",
    "is-wanted": "it_is_wanted",
    "left_over": "left_over_lem",
    "length-fits": "length_fits_lem",
    "littleEndian": "little_endian_of",
    "mark-for": "mark_for_lem",
    "note-fits": "note_fitting",
    "note-small": "note_small_lem",
    "on-ring": "within_ring",
    "ones-in": "ones_in_lem",
    "outcome-read": "outcome_read_lem",
    "own_in": "own_in_lem",
    "records-fit": "records_fit_lem",
    "records-from": "records_from_lem",
    "rest-fits": "rest_fits_lem",
    "run-shows": "run_shows_lem",
    "same-pair": "same_pair_lem",
    "size_fits": "size_fits_lem",
    "stage-fits": "stage_fitting",
    "stands-unserved": "stands_unserved_lem",
    "start-get": "start_get_lem",
    "start-put": "start_put_lem",
    "step-shows": "step_shows_lem",
    "taken-from": "taken_from_lem",
    "wanted_by": "wanted_by_lem",
}


def turned(name):
    if name in APART:
        return APART[name]
    parts = name.replace("-", "_").split("_")
    return "_".join(re.sub(r"(?<=[a-z0-9])([A-Z])", lambda m: "_" + m.group(1).lower(), part)
                    if CAMEL.match(part) else part for part in parts)


def files(top):
    for folder, dirs, names in os.walk(os.path.join(top, "crates")):
        dirs[:] = sorted(d for d in dirs if d not in ("out", "target", "must-fail"))
        for name in sorted(names):
            if name.endswith((".antt", ".rt")):
                yield os.path.join(folder, name)


def code_of(text):
    return QUIET.sub(lambda m: re.sub(r"[^\n]", " ", m.group()), text)


def own_crates(top):
    return set(os.listdir(os.path.join(top, "crates")))


def taken(text, crates):
    """The names that a file takes from modules of the kit."""
    found = set()
    for m in USE.finditer(text):
        path, names = m.group(1), m.group(2)
        parts = path.split(".")
        if parts[0] == "Rattle" and len(parts) > 1 and parts[1] in crates and not (set(parts) & {"Statement", "Tie"}):
            continue
        for item in (names or parts[-1]).split(","):
            found.add(item.strip().split(" as ")[0].strip())
    return found


DECLARED = re.compile(
    r"(?:^|[\n(){};,]|\b(?:pub|let|where|abbrev|unfoldable|opaque|in)\s|λ\s*)\s*((?:[^\s(){}.;,@\"«»:]+\s+)*?[^\s(){}.;,@\"«»:]+)\s*:(?=\s)")


def declared(code):
    """The names that stand left of a colon, or are bound by λ or let, in a file's code."""
    found = set()
    for m in DECLARED.finditer(code):
        found.update(m.group(1).split())
    for m in re.finditer(r"λ((?:[^.λ])*?)\.", code):
        found.update(WORD.findall(m.group(1)))
    for m in re.finditer(r"\blet\s+([^\s=:]+)", code):
        found.add(m.group(1))
    # clauses' own variables: what stands left of = at the start of a line, behind the function's name
    for m in re.finditer(r"^[^\n=]*?(?<=\s)=(?=\s|$)", code, re.M):
        found.update(WORD.findall(m.group())[1:])
    return found


def is_ours(word):
    return (CAMEL.match(word) or KEBAB.match(word)) and not word.startswith("Need-")


def main():
    top = "."
    crates = own_crates(top)
    texts = {}
    for path in files(top):
        with open(path, encoding="utf-8") as f:
            texts[path] = f.read()
    own, kit, used = set(), set(), set()
    for path, text in texts.items():
        kit |= taken(text, crates)
        if path.endswith(".antt"):
            code = code_of(text)
            if path.endswith("/Proof.antt"):
                continue  # what stands there is named as Rattle names a function's goals
            own |= {w for w in declared(code) if is_ours(w)}
            used |= set(WORD.findall(code))
    own -= kit - set(APART)
    table = {w: turned(w) for w in own | set(APART) if turned(w) != w}
    if "--list" in sys.argv:
        rust = set()
        for path, text in texts.items():
            if path.endswith(".rt"):
                rust |= set(re.findall(r"\bfn\s+(\w+)", text))
        back = {}
        for old, new in sorted(table.items()):
            back.setdefault(new, []).append(old)
        for new, olds in sorted(back.items()):
            notes = []
            if len(olds) > 1:
                notes.append("TWO")
            if new in used:
                notes.append("USED")
            if new in kit:
                notes.append("KIT")
            if new in rust:
                notes.append("RUST")
            print(new, *olds, *notes)
        return
    for path, text in texts.items():
        rust = path.endswith(".rt")

        def word(m):
            return table.get(m.group(), m.group())

        def comment(m):
            return WORD.sub(lambda w: table[w.group()] if w.group() in table and CAMEL.match(w.group()) else w.group(),
                            m.group())

        if rust:
            new = WORD.sub(lambda w: table[w.group()] if w.group() in table and CAMEL.match(w.group()) else w.group(),
                           text)
        else:
            out, at = [], 0
            for m in QUIET.finditer(text):
                out.append(WORD.sub(word, text[at:m.start()]))
                out.append(comment(m) if not m.group().startswith('"') else m.group())
                at = m.end()
            out.append(WORD.sub(word, text[at:]))
            new = "".join(out)
        if new != text:
            with open(path, "w", encoding="utf-8") as f:
                f.write(new)


main()
