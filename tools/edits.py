#!/usr/bin/env python3
"""edits.py: writes docs/EDITS.md, the list of must-fail edits, from the edits' files and names.

--check fails where that page is not what would be written. Each edit's first line is `turns: ` and what the wrong body
would do; its name begins with the name of the file that it changes, and that has each old text once: `rt ci` passes over
an edit that it can't make.
"""
import pathlib
import re
import sys

ROOT = pathlib.Path(__file__).resolve().parent.parent
PAGE = ROOT / "docs" / "EDITS.md"
HEAD = """# Wrong bodies that the prover refuses

Written by tools/edits.py. The gate tries each edit; its name begins with the name of the file that it changes.
"""


def what_it_turns(edit):
    lines = edit.read_text(encoding="utf-8").splitlines()
    if not lines or not lines[0].startswith("turns: "):
        sys.exit(f"{edit.relative_to(ROOT)}: its first line does not say what it turns")
    file = next((it[len("file: "):] for it in lines if it.startswith("file: ")), "")
    stem = pathlib.PurePath(file).stem.lower()
    if not re.match(rf"{stem}_[a-z0-9_]+\.edit$", edit.name):
        sys.exit(f"{edit.relative_to(ROOT)}: its name does not begin with {stem}_, the file that it changes")
    source = (edit.parent.parent / file).read_text(encoding="utf-8")
    for old in [it[len("old: "):] for it in lines if it.startswith("old: ")]:
        if source.count(old) != 1:
            sys.exit(f"{edit.relative_to(ROOT)}: {file} has its old text {source.count(old)} times, and not once")
    return lines[0][len("turns: "):].strip()


def table():
    rows = ["| crate | edit | what it would do |", "|---|---|---|"]
    listed = (ROOT / "crates.txt").read_text(encoding="utf-8").splitlines()
    for crate in [it.split(":")[0] for it in listed if ":" in it and not it.startswith("#")]:
        for edit in sorted((ROOT / "crates" / crate / "must-fail").glob("*.edit")):
            rows.append(f"| {crate} | {edit.stem} | {what_it_turns(edit)} |")
    return "\n".join(rows)


def main(words):
    wanted = f"{HEAD}\n{table()}\n"
    if words == ["--check"]:
        written = PAGE.read_text(encoding="utf-8") if PAGE.exists() else ""
        sys.exit(None if wanted == written else "docs/EDITS.md is not the list of the edits: run tools/edits.py")
    PAGE.write_text(wanted, encoding="utf-8")


main(sys.argv[1:])
