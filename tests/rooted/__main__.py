"""The packages in a clean root of Debian 12, by hand, as root.

    python3 -m tests.rooted PACKAGE TAR [--before PACKAGE] [--root FOLDER]

Each is installed in a copy of the root, configured, and served by the words of its unit as the unit's user; smbclient
outside the root puts files there and gets them. The package is then upgraded (from that of --before, else from itself),
removed and purged. It needs debootstrap and a mirror of Debian, smbclient, lintian, iproute2 and util-linux. With --root
a root that is there is copied: `debootstrap --variant=minbase --include=adduser,logrotate bookworm FOLDER`. All that is
run is printed; the status is 1 where something is not right.
"""
import argparse
import os
import sys
import tempfile

from tests.rooted import packages
from tests.rooted.root import copy_of, leave_the_network, make
from tests.trials import passed_of

# Of a package and of a tar: the unit, and the programs.
OF_PACKAGE = '/lib/systemd/system/smbshare.service', ('/usr/bin/smbshare', '/usr/bin/smbshare-account')
OF_TAR = ('/usr/local/lib/systemd/system/smbshare.service',
          ('/usr/local/bin/smbshare', '/usr/local/bin/smbshare-account'))


def tried(subject, base, places, tests):
    """Whether all tests passed in a copy of a root."""
    with copy_of(base) as root, tempfile.TemporaryDirectory() as folder:
        return passed_of(subject, tests(packages.Installed(root, folder, *places)))


def main():
    words = argparse.ArgumentParser(prog='python3 -m tests.rooted', description=__doc__,
                                    formatter_class=argparse.RawDescriptionHelpFormatter)
    words.add_argument('package', metavar='PACKAGE', type=os.path.abspath, help='the package of Debian')
    words.add_argument('tar', metavar='TAR', type=os.path.abspath, help='the tar.gz of the same')
    words.add_argument('--before', metavar='PACKAGE', type=os.path.abspath, help='an older package')
    words.add_argument('--root', metavar='FOLDER', help='a root that debootstrap made, which stays as it is')
    given = words.parse_args()
    with tempfile.TemporaryDirectory() as room:
        base = given.root or os.path.join(room, 'root')
        if not given.root:
            make(base)
        leave_the_network()
        well = [tried('package', base, OF_PACKAGE, lambda it: packages.of_package(it, given.package, given.before)),
                tried('tar', base, OF_TAR, lambda it: packages.of_tar(it, given.tar))]
    return 0 if all(well) else 1


if __name__ == '__main__':
    sys.exit(main())
