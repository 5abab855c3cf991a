#!/usr/bin/env bash
# Makes of the proved program a Debian package and a tar.gz of the same, in out/package. From the top of the repository:
# bash tools/package.sh. What else it takes, `bash tools/package.sh --help` tells.
set -u
exec python3 "$(dirname "$0")/lib/package.py" "$@"
