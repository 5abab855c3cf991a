"""A Debian package: what is in it, and how it is written. Its scripts and texts are in tools/debian/."""
import gzip
import hashlib
import os
import pathlib
import subprocess
import tempfile

from proving import TOP

TEXTS, REVISION = TOP / "tools" / "debian", "1"
# How hard is tried to make a file small: 9 takes thrice the time of 6, for less than a hundredth of a package.
LEVEL_OF_WHOLE, LEVEL = 6, 9
SCRIPTS = ("postinst", "prerm", "postrm")
# The packages that the libraries are in; the version of the first is what the program needs of it.
LIBRARIES = {"libc.so.6": "libc6 (>= {})", "libm.so.6": "libc6 (>= {})", "libgcc_s.so.1": "libgcc-s1"}
DOC, MAN = "usr/share/doc/smbshare", "usr/share/man/man1"
CONFIG, LOGROTATE = "etc/smbshare/smbshare.toml", "etc/logrotate.d/smbshare"
# What the examples of a unit and of a stanza say in a package: its user is there before the service and behind it.
IN_UNIT = {"ExecStart=/usr/local/bin/smbshare": "ExecStart=/usr/bin/smbshare",
           "DynamicUser=yes": "User=smbshare\nGroup=smbshare\nRemoveIPC=yes"}
IN_LOGROTATE = {"su root root": "su smbshare smbshare"}


def text_of(name):
    return (TOP / name).read_text(encoding="utf-8")


def zipped(data, level=LEVEL):
    """The data as `gzip -9n` has it, or of another level."""
    return gzip.compress(data.encode() if isinstance(data, str) else data, level, mtime=0)


def changed(text, changes):
    """The text with each of these lines changed, which is there once."""
    for old, new in changes.items():
        if text.count(old) != 1:
            raise ValueError(f"{old!r} is there {text.count(old)} times")
        text = text.replace(old, new)
    return text


def copyright_text():
    """The file `copyright`, with the text of the licence that Debian has no copy of."""
    licence = text_of("LICENSE-MIT").partition("\n\n")[2].partition("\n\n")[2].strip()
    body = "".join(f" {it or '.'}\n" for it in licence.splitlines())
    return f"{text_of('tools/debian/copyright')}\nLicense: MIT\n{body}"


def changelog(made):
    """Debian's own log of changes, which sends to that of the share."""
    return (f"smbshare ({made.version}-{REVISION}) unstable; urgency=medium\n\n"
            "  * changelog.gz says what is new, and BUILD what this was made of.\n\n"
            f" -- {maintainer()}  {made.day}\n")


def maintainer():
    lines = text_of("tools/debian/control").splitlines()
    return next(it.partition(": ")[2] for it in lines if it.startswith("Maintainer: "))


def debian_files(made):
    """The files of the package by their names, each with its mode and its bytes."""
    texts = {
        f"{MAN}/smbshare.1.gz": zipped(text_of("docs/smbshare.1")),
        f"{MAN}/smbshare-account.1.gz": zipped(".so man1/smbshare.1\n"),
        "lib/systemd/system/smbshare.service": changed(text_of("examples/smbshare.service"), IN_UNIT),
        CONFIG: text_of("examples/smbshare.toml"),
        LOGROTATE: changed(text_of("examples/smbshare.logrotate"), IN_LOGROTATE),
        f"{DOC}/BUILD": made.note,
        f"{DOC}/README.Debian": text_of("tools/debian/README.Debian"),
        f"{DOC}/copyright": copyright_text(),
        f"{DOC}/changelog.Debian.gz": zipped(changelog(made)),
        f"{DOC}/changelog.gz": zipped(text_of("CHANGELOG.md")),
        **{f"{DOC}/{it}.gz": zipped(text_of(f"docs/{it}")) for it in ("SERVING.md", "DATA.md")},
        **{f"{DOC}/examples/{it}": text_of(f"examples/{it}") for it in ("office.toml", "device.toml")},
    }
    programs = {"usr/bin/smbshare": made.program, "usr/bin/smbshare-account": text_of("tools/smbshare-account")}
    found = {name: (0o644, data) for name, data in texts.items()}
    found.update({name: (0o755, data) for name, data in programs.items()})
    return {name: (mode, data.encode() if isinstance(data, str) else data) for name, (mode, data) in found.items()}


def control_files(made, files):
    """What dpkg itself reads, as files of the folder DEBIAN."""
    size = sum(-(-len(data) // 1024) for _, data in files.values())
    libraries = ", ".join(sorted({LIBRARIES[it].format(made.needs.glibc) for it in made.needs.libraries}))
    facts = {"version": f"{made.version}-{REVISION}", "libraries": libraries, "size": size}
    texts = {
        "control": text_of("tools/debian/control").format(**facts),
        "conffiles": f"/{CONFIG}\n/{LOGROTATE}\n",
        "md5sums": "".join(f"{hashlib.md5(data).hexdigest()}  {name}\n" for name, (_, data) in sorted(files.items())),
    }
    found = {name: (0o644, text.encode()) for name, text in texts.items()}
    found.update({name: (0o755, (TEXTS / name).read_bytes()) for name in SCRIPTS})
    return {f"DEBIAN/{name}": it for name, it in found.items()}


def put(files, room, seconds):
    """Writes files into a folder, all of the same moment, whatever rights new files have here."""
    for name, (mode, data) in files.items():
        file = room / name
        file.parent.mkdir(parents=True, exist_ok=True)
        file.write_bytes(data)
        file.chmod(mode)
    for path in sorted(room.rglob("*"), reverse=True):
        if path.is_dir():
            path.chmod(0o755)
        os.utime(path, (seconds, seconds))
    room.chmod(0o755)
    os.utime(room, (seconds, seconds))


def write_deb(made, files, folder):
    """Writes the package of these files into a folder, and gives its path."""
    deb = folder / f"smbshare_{made.version}-{REVISION}_amd64.deb"
    with tempfile.TemporaryDirectory() as it:
        put({**files, **control_files(made, files)}, pathlib.Path(it), made.seconds)
        known = {**os.environ, "SOURCE_DATE_EPOCH": str(made.seconds), "LC_ALL": "C"}
        words = ["dpkg-deb", "--root-owner-group", "-Zgzip", f"-z{LEVEL_OF_WHOLE}", "--build", it, str(deb)]
        subprocess.run(words, check=True, stdout=subprocess.DEVNULL, env=known)
    return deb
