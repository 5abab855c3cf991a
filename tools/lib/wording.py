"""Counts words in the sources' comments that hide what they name, and long lines; fails where there are more than before.

    python3 tools/lib/wording.py [--list WORD]

Comments are those of src and specs. Each count may only fall: who lowers one writes the new number here. With --list the
lines that have a word are printed. Say `is` or `exists` for `stands`, `returns` or `says` for `tells`, and the
noun or the argument's name for `so many`.
"""
import pathlib
import re
import sys

TOP = pathlib.Path(__file__).resolve().parents[2]
# The most comment lines of each pattern, and the most lines of code, definitions or comments over 120 columns.
MOST = {r"stands?": 245, r"told": 22, r"tells?": 98, r"so many": 170, r"hears?|heard": 51}
LONGEST, MOST_LONG = 120, 1_505
COMMENT = re.compile(r"^\s*(?://[/!]?|--) (.*)$")


def sources():
    """The files of code and definitions."""
    for folder in sorted(TOP.glob("crates/*")):
        for part, kind in (("src", "*.rt"), ("specs", "*.antt")):
            yield from sorted((folder / part).rglob(kind))


def lines():
    """Each line of them, with its place and what it says where it is a comment."""
    for file in sources():
        for number, line in enumerate(file.read_text(encoding="utf-8").splitlines(), 1):
            found = COMMENT.match(line)
            yield f"{file.relative_to(TOP)}:{number}", line, found[1] if found else ""


def counts():
    """How many comment lines each pattern has, and how many lines are too long."""
    patterns = {it: re.compile(rf"\b(?:{it})\b") for it in MOST}
    found, long = dict.fromkeys(MOST, 0), 0
    for _, line, said in lines():
        long += len(line) > LONGEST
        for it, pattern in patterns.items():
            found[it] += bool(pattern.search(said))
    return found, long


def main(words):
    if words[:1] == ["--list"] and len(words) == 2:
        for place, _, said in lines():
            if re.search(rf"\b(?:{words[1]})\b", said):
                print(f"{place}: {said}")
        return 0
    found, long = counts()
    worse = [f"{count} comments say `{it}`, {MOST[it]} before" for it, count in found.items() if count > MOST[it]]
    if long > MOST_LONG:
        worse.append(f"{long} lines have over {LONGEST} columns, {MOST_LONG} before")
    for it in worse:
        print(it)
    print("wording: " + ", ".join(f"{it} {count}" for it, count in found.items()) + f"; long lines {long}")
    return bool(worse)


if __name__ == "__main__":
    sys.exit(main(sys.argv[1:]))
