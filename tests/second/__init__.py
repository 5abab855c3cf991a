"""A second machine, which goes on with a share's files where the first one dies: from a copy of the journal that
follows it, or from the journal itself, which both reach, behind an address that moves. Run by hand:
`python3 -m tests.second`."""
