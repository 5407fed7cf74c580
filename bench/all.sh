#!/usr/bin/env bash
# Runs the scripts of this folder that time a command, and prints one table of all. It wants a machine that does nothing else. A script that
# lacks a tool or a program says so, and the others go on. Ends with status 1 if there was one.
set -u
here=$(CDPATH='' cd -- "$(dirname -- "${BASH_SOURCE[0]}")" >/dev/null && pwd -P)
failed=0
printf '| Work | Size | µs | Peer | µs | Ratio | Growth |\n|---|---|---|---|---|---|---|\n'
for name in check statics infer notes explain text list link images run programs machine edk2; do
  ROWS_ALONE=1 "$here/$name.sh" || failed=1
done
exit "$failed"
