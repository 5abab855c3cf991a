"""A tar.gz of the program and of what is installed beside it: a folder with install.sh, which does so."""
import io
import tarfile

from debian import LEVEL_OF_WHOLE, text_of, zipped

# The files of the repository that are in it, each under its own last name.
EXAMPLES = ("smbshare.service", "smbshare.logrotate", "smbshare.toml", "office.toml", "device.toml")
TEXTS = ("docs/smbshare.1", "docs/SERVING.md", "docs/DATA.md", *(f"examples/{it}" for it in EXAMPLES),
         "CHANGELOG.md", "LICENSE-APACHE", "LICENSE-MIT")
PROGRAMS = ("tools/install.sh", "tools/smbshare-account")


def tar_files(made):
    """The files of the tar by their names, each with its mode and its bytes."""
    found = {name.rpartition("/")[2]: (mode, text_of(name).encode())
             for names, mode in ((TEXTS, 0o644), (PROGRAMS, 0o755)) for name in names}
    return {**found, "BUILD": (0o644, made.note.encode()), "smbshare": (0o755, made.program)}


def member(name, mode, made):
    """A file or folder of the tar, without its bytes."""
    it = tarfile.TarInfo(name)
    it.mode, it.mtime, it.uname, it.gname = mode, made.seconds, "root", "root"
    return it


def write_tar(made, files, folder):
    """Writes the tar of these files into a folder, and gives its path."""
    top, packed = f"smbshare-{made.version}", io.BytesIO()
    with tarfile.open(fileobj=packed, mode="w", format=tarfile.USTAR_FORMAT) as it:
        above = member(top, 0o755, made)
        above.type = tarfile.DIRTYPE
        it.addfile(above)
        for name, (mode, data) in sorted(files.items()):
            file = member(f"{top}/{name}", mode, made)
            file.size = len(data)
            it.addfile(file, io.BytesIO(data))
    path = folder / f"{top}-amd64.tar.gz"
    path.write_bytes(zipped(packed.getvalue(), LEVEL_OF_WHOLE))
    return path
