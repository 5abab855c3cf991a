"""Writes the options of the manual page, docs/smbshare.1, from the texts of the program's own help.

With --check it writes nothing, and its status is 1 where the page has other texts.
"""
import pathlib
import re
import sys

TOP = pathlib.Path(__file__).resolve().parent.parent.parent
ROWS = [TOP / "crates/smb_command_line/src" / it for it in ("commands.rt", "clients.rt", "account.rt", "share.rt")]
PAGE = TOP / "docs/smbshare.1"
PLACED = ("First", "FirstWord", "Second", "Third")
BEGIN, END = ".SH OPTIONS\n", ".TP\n.BR \\-h"


def texts(source):
    """The constants that are a text, by name."""
    return dict(re.findall(r'^const (\w+): &str =\s*"((?:[^"\\]|\\.)*)";', source, re.M))


def options(source):
    """Each option's name, the word for its value or None, and its help, in the order of the source and each once."""
    found, named = {}, texts(source)
    for row in re.findall(r"^(?:pub\(crate\) )?const \w+: OptionRow = OptionRow \{\n(.*?)\n\};", source, re.M | re.S):
        name = re.search(r'name: "([\w-]+)"', row)[1]
        takes = re.search(r'takes: Takes::(\w+)(?:\(\s*"(\w+)")?', row)
        text = re.search(r'help: (?:"((?:[^"\\]|\\.)*)"|(\w+))', row)
        words = re.findall(r'"([\w-]+)"', row.partition("&[")[2].partition("]")[0]) if takes[1] == "Word" else []
        if takes[1] not in PLACED:
            words = f" ({', '.join(words)})" if words else ""
            found.setdefault(name, (takes[2], (text[1] or named[text[2]]) + words))
    return [(name, *it) for name, it in found.items()]


def written(rows):
    """The rows as the manual page has them."""
    lines = []
    for name, value, text in rows:
        word = "\\-\\-" + name.replace("-", "\\-")
        lines += [".TP", f'.BI {word} " {value}"' if value else f".B {word}", text.replace("--", "\\-\\-") + "."]
    return "".join(f"{it}\n" for it in lines)


def main(words):
    page = PAGE.read_text(encoding="utf-8")
    begin = page.index(BEGIN) + len(BEGIN)
    wanted = page[:begin] + written(options("".join(it.read_text(encoding="utf-8") for it in ROWS))) + page[page.index(END, begin):]
    if words == ["--check"]:
        sys.exit(None if page == wanted else "docs/smbshare.1 has other texts than the program's help: run tools/lib/manual.py")
    PAGE.write_text(wanted, encoding="utf-8")


if __name__ == "__main__":
    main(sys.argv[1:])
