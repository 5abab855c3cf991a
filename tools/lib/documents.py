"""Checks what the documents say of the repository, and prints how many words each has.

Of README.md, CONTRIBUTING.md, tools/README.md, bench/FIGURES.md and docs/*.md: each file, crate, law and option that is named
exists; no sentence of twelve words or more stands in two of them; README has at most 1,500 words, and README, CONTRIBUTING and
docs/ at most 40,000 without the pages that a program writes whole, so with the tables and lists that one writes into a page; each
rule of a configuration stands in docs/REPLAY.md in the program's own words. The status is 1 where one of these does not hold,
which is printed.
"""
import itertools
import pathlib
import re
import sys

TOP = pathlib.Path(__file__).resolve().parent.parent.parent
WRITTEN = ("docs/EDITS.md", "docs/BODIES.md", "docs/GATE.md")
ROOTS = "crates|docs|tools|tests|bench|examples|conform"
SOURCES = ("crates/*/src/**/*.rt", "tools/**/*.*", "tests/**/*.*", "bench/**/*.*", "conform/**/*.*", "examples/*")
TO_FILL_IN = ("NAME", "CRATE", "FILE", "FILE_WHAT", "SUBJECT", "my_share")
README_WORDS, WORDS, TWICE = 1_500, 40_000, 12
RULES = "crates/smb_config/src/rule.rt"


def documents():
    """The documents by name, with their texts."""
    names = ["README.md", "CONTRIBUTING.md", "tools/README.md", "bench/FIGURES.md", *(f"docs/{it.name}" for it in sorted(TOP.glob("docs/*.md")))]
    return {name: (TOP / name).read_text(encoding="utf-8") for name in names}


def is_there(path):
    """Whether a file or folder of this name exists, may be made by a build, or has a part that the reader fills in."""
    parts = path.split("/")
    return "out" in parts or any(TOP.glob(path + ".md")) or any(it.split(".")[0] in TO_FILL_IN for it in parts) or any(TOP.glob(path))


def wrong_paths(text):
    found = re.findall(rf"(?<![\w/.-])(?:{ROOTS})/[\w./*-]+", text)
    return sorted({it for it in (name.rstrip(".,-/") for name in found) if not is_there(it)})


def wrong_names(text, crates, laws):
    """The crates and laws that are named and are none."""
    named = set(re.findall(r"(?<![\w/.:-])smb_[a-z0-9_]+(?![\w.(])", text)) - crates
    return sorted(named | set(re.findall(r"\blaws_of_[a-z0-9_]+\b", text)) - laws)


def wrong_options(text, sources):
    """The options, each alone in its quotes, that no source has."""
    return sorted({it for it in re.findall(r"`(--[a-z][a-z-]+)", text) if it not in sources and f'"{it[2:]}"' not in sources})


def sentences(text):
    """The sentences of twelve words or more, outside code."""
    text = re.sub(r"^(?:    |\t).*$|^\|.*$|```.*?```", "\n", text, flags=re.M | re.S)
    for part in re.split(r"\n\s*\n|\n(?=[-#*] )", text):
        for it in re.split(r"(?<=[.:;!?])\s+", " ".join(part.split())):
            if len(it.split()) >= TWICE:
                yield it


def said_twice(texts):
    """The sentences that stand in two documents, with these."""
    where = {}
    for name, text in texts.items():
        for it in set(sentences(text)):
            where.setdefault(it, []).append(name)
    return [(it, names) for it, names in where.items() if len(names) > 1]


def rules():
    """What the program says of a key that breaks a rule: the key, and what it is to be."""
    source = (TOP / RULES).read_text(encoding="utf-8")
    found = re.findall(r'=>\s*(?:\{\s*)?"([a-z_.]+: (?:[^"\\]|\\.)+)"', source)
    return [re.sub(r"\\(.)", r"\1", it) for it in found]


def main():
    texts = documents()
    crates = {line.split(":")[0].split()[0] for line in (TOP / "crates.txt").read_text(encoding="utf-8").splitlines() if ":" in line}
    files = {it for pattern in SOURCES for it in TOP.glob(pattern) if it.is_file() and "/out/" not in str(it)}
    sources = "\n".join(it.read_text(encoding="utf-8", errors="replace") for it in sorted(files))
    laws = set(re.findall(r"\bfn (laws_of_[a-z0-9_]+)", sources))
    faults = []
    for name, text in texts.items():
        faults += [f"{name}: there is no {it}" for it in itertools.chain(
            wrong_paths(text), wrong_names(text, crates, laws), wrong_options(text, sources))]
    faults += [f"{' and '.join(names)}: {it}" for it, names in said_twice({it: text for it, text in texts.items() if it not in WRITTEN})]
    counts = {name: len(text.split()) for name, text in texts.items()}
    if counts["README.md"] > README_WORDS:
        faults.append(f"README.md has {counts['README.md']} words, more than {README_WORDS}")
    faults += [f"docs/REPLAY.md has not the rule: {it}" for it in rules() if it not in texts["docs/REPLAY.md"]]
    counted = sum(count for name, count in counts.items() if name not in WRITTEN and not name.startswith(("tools", "bench")))
    if counted > WORDS:
        faults.append(f"without the pages that are written whole there are {counted} words, more than {WORDS}")
    print("words: " + ", ".join(f"{name.removeprefix('docs/')} {count:,}" for name, count in counts.items()) + f"; of the pages not written whole {counted:,}")
    for it in faults:
        print(it)
    sys.exit(bool(faults))


if __name__ == "__main__":
    main()
