#!/usr/bin/env bash
# Serves the share `data` to guests on 127.0.0.1:4450, by a program that is built without any proof. From the top of the
# repository: bash tools/serve.sh. What else it does, `bash tools/serve.sh --help` tells.
set -u
exec python3 "$(dirname "$0")/lib/serve.py" "$@"
