"""What a program for Linux on x86-64 needs of the system that runs it: a loader, libraries, a version of the C library.

    python3 tools/lib/needs.py PROGRAM
"""
import collections
import pathlib
import re
import struct
import sys

LOADER = "/lib64/ld-linux-x86-64.so.2"
# The libraries that every system has whose loader this is. A proved program needs the first alone.
USUAL = ("libc.so.6", "libm.so.6", "libgcc_s.so.1")
MAGIC, X86_64 = b"\x7fELF\x02\x01", 62
LOADED, DYNAMIC, INTERPRETER = 1, 2, 3
NEEDED, TEXTS, SIZE_OF_TEXTS, FOLDERS, FOLDERS_TOO = 1, 5, 10, 15, 29

Needs = collections.namedtuple("Needs", "loader libraries folders glibc")


class Odd(Exception):
    """It is no such program, or needs what a plain system has not."""


def segments(program):
    """The segments of a program: the type, the place in the file and in memory, and the size in the file."""
    begin, size, count = *struct.unpack_from("<Q", program, 32), *struct.unpack_from("<HH", program, 54)
    for at in range(begin, begin + size * count, size):
        kind, _, place, address, _, length = struct.unpack_from("<IIQQQQ", program, at)
        yield kind, place, address, length


def texts_of(program, loaded, values):
    """The texts that the loader reads, by their place."""
    address, size = values[TEXTS][0], values[SIZE_OF_TEXTS][0]
    place = next(place + address - begin for _, place, begin, length in loaded if begin <= address < begin + length)
    return program[place:place + size]


def needs_of(program):
    """What the program of these bytes needs."""
    if program[:6] != MAGIC or struct.unpack_from("<H", program, 18) != (X86_64,):
        raise Odd("it is no program for Linux on x86-64")
    parts, values = list(segments(program)), collections.defaultdict(list)
    for _, place, _, length in (it for it in parts if it[0] == DYNAMIC):
        for tag, value in struct.iter_unpack("<QQ", program[place:place + length]):
            values[tag].append(value)
    if not values:
        raise Odd("it is not linked with the C library of the system")
    texts = texts_of(program, [it for it in parts if it[0] == LOADED], values)

    def named(tag):
        return [texts[it:texts.index(b"\0", it)].decode() for it in values[tag]]

    loaders = [program[place:place + length] for kind, place, _, length in parts if kind == INTERPRETER]
    versions = [tuple(map(int, it)) for it in re.findall(rb"(?<=\0)GLIBC_(\d+)\.(\d+)(?=[.\0])", texts)]
    glibc = "%d.%d" % max(versions, default=(2, 0))
    return Needs(b"".join(loaders).rstrip(b"\0").decode(), named(NEEDED), named(FOLDERS) + named(FOLDERS_TOO), glibc)


def usual_needs_of(program):
    """What the program needs, which every system has whose C library is new enough."""
    needs = needs_of(program)
    if needs.loader != LOADER:
        raise Odd(f"its loader is {needs.loader or 'none'}, not {LOADER}")
    odd = [it for it in needs.libraries if it not in USUAL] + needs.folders
    if odd:
        raise Odd(f"it needs {', '.join(odd)}")
    return needs


def main(words):
    if len(words) != 1:
        sys.exit(__doc__.strip())
    try:
        print(needs_of(pathlib.Path(words[0]).read_bytes()))
    except Odd as why:
        sys.exit(f"needs.py: {words[0]}: {why}")


if __name__ == "__main__":
    main(sys.argv[1:])
