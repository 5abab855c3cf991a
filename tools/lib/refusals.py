"""Writes the tables of refusals of docs/PROFILE.md, each from the line `<!-- table: NAME -->` to the next empty line, as the program
of crates/smb_refusal_table prints them.

With --check it writes nothing, and its status is 1 where the page has other tables, or where a label of the sources is in none.
"""
import pathlib
import re
import sys

TOP = pathlib.Path(__file__).resolve().parent.parent.parent
PRINTED, PAGE = TOP / "crates/smb_refusal_table/stdout", TOP / "docs/PROFILE.md"
LABELLED = ("crates/smb_refusals/src/*.rt", "crates/smb_peers/src/ending.rt")
# The faults of calls that meet no connection: a frame that is too long to be written, and no memory.
OF_NO_CONNECTION = ("F3", "F4", "H8")
TABLE = r"^<!-- table: (.*) -->\n(?:.+\n)*"


def tables():
    """The tables that the program prints, by their headings."""
    parts = PRINTED.read_text(encoding="utf-8").split("## ")[1:]
    return {it.partition("\n")[0]: it.partition("\n")[2].strip() for it in parts}


def labels_of_sources():
    """The labels that the sources give to rows."""
    sources = [it.read_text(encoding="utf-8") for pattern in LABELLED for it in TOP.glob(pattern)]
    return {it for text in sources for it in re.findall(r'=> "([A-Z]+[0-9]+[ab]?)",', text)} - set(OF_NO_CONNECTION)


def rows(printed):
    """The label and the sentence of each row of these tables."""
    return [it for text in printed.values() for it in re.findall(r"^\| (\w+) \| ([^|]+) \|", text, re.M)]


def written(page, printed):
    """The page with these tables in place of those that it has."""
    return re.sub(TABLE, lambda it: f"<!-- table: {it[1]} -->\n{printed.get(it[1], 'no such table')}\n", page, flags=re.M)


def faults():
    """What is wrong with the page."""
    printed, page = tables(), PAGE.read_text(encoding="utf-8")
    named = re.findall(TABLE, page, re.M)
    labels = {label for label, _ in rows(printed)}
    found = [f"docs/PROFILE.md has not once the table {it}" for it in printed if named.count(it) != 1]
    found += [f"crates/smb_refusal_table prints no row {it}" for it in sorted(labels_of_sources() - labels)]
    if page != written(page, printed):
        found.append("docs/PROFILE.md has other tables than crates/smb_refusal_table prints: run tools/lib/refusals.py")
    return found


def main(words):
    if words != ["--check"]:
        PAGE.write_text(written(PAGE.read_text(encoding="utf-8"), tables()), encoding="utf-8")
    found = faults()
    print("\n".join(found), end="\n" * bool(found))
    sys.exit(bool(found))


if __name__ == "__main__":
    main(sys.argv[1:])
