#!/usr/bin/env bash
# Tries the must-fail edits that the gate leaves out, those of crates/NAME/by-hand: each has to be refused. The words are the crates to be
# tried, in place of all that have such edits.
#
# It tries those of the last commit, in a clone. Each crate is proved there, with the crates below it, unless a check on this machine did
# so before. Prints what `rt must-fail` says of each edit. The status is 1 if one isn't refused or can't be tried.
set -u
top=$(CDPATH='' cd -- "$(dirname -- "${BASH_SOURCE[0]}")/.." >/dev/null && pwd -P)
room=$(mktemp -d) || exit 1
trap 'rm -rf "$room"' EXIT
git clone -q "$top" "$room/clone" && cd "$room/clone" || exit 1
crates=("$@")
[ $# -gt 0 ] || mapfile -t crates < <(git ls-files 'crates/*/by-hand/*.edit' | cut -d / -f 2 | uniq)
for crate in "${crates[@]}"; do
  [ -d "crates/$crate/by-hand" ] || { echo "edits: there is no folder crates/$crate/by-hand" >&2; exit 2; }
done
failed=0
for crate in "${crates[@]}"; do
  # (rt looks for edits in must-fail/ alone)
  rm -rf "crates/$crate/must-fail" && mv "crates/$crate/by-hand" "crates/$crate/must-fail" && rt must-fail "$crate" || failed=1
done
exit "$failed"
