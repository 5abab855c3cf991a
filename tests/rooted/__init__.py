"""The packages in a clean root of Debian 12: installed, served as their unit says, upgraded, removed and purged. Run by
hand, as root: `python3 -m tests.rooted PACKAGE TAR`."""
