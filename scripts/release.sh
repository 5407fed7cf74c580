#!/usr/bin/env bash
# Makes one archive, for a machine without the kit: the programs as the gate built them, the licence, the pages, the examples, and the
# scripts that run and sign images. The programs lie in bin/, as their scripts do here. The word is the archive's
# name, which ends with .tar.gz.
#
# It runs the gate, .ci/run, over the last commit, in a clone. What the gate passed on this machine is kept, so that takes long only the first time.
# A tree with changes, or a gate that doesn't pass, is refused with status 1. Then no archive is written.
#
# RELEASE in the archive says the commit, the kit, and what the gate passed. SHA256SUMS has a sum of each other file.
set -uo pipefail
top=$(CDPATH='' cd -- "$(dirname -- "${BASH_SOURCE[0]}")/.." >/dev/null && pwd -P)
[[ $# = 1 && ${1##*/} == ?*.tar.gz ]] || { echo 'usage: scripts/release.sh ARCHIVE.tar.gz' >&2; exit 2; }
archive=$(realpath -m -- "$1")
refuse() { echo "release: $*" >&2; exit 1; }

changes=$(git -C "$top" status --porcelain) || refuse 'the tree is no repository of git'
[ -z "$changes" ] || refuse 'the tree has changes; commit them first'
[ -w "$(dirname -- "$archive")" ] || refuse "$archive can't be written"
kit=$(rt version) || refuse 'the gate needs the command rt of the Rattle kit'
room=$(mktemp -d) || exit 1
trap 'rm -rf "$room"' EXIT
git clone -q "$top" "$room/clone" && cd "$room/clone" || refuse 'the last commit is not to be had'
commit=$(git rev-parse HEAD)
echo 'release: runs the gate over the last commit' >&2
.ci/run >"$room/log" 2>&1 || { tail -n 20 "$room/log" >&2; refuse 'the gate does not pass'; }
passed=$(grep -E '^[0-9]+ passed, 0 failed' "$room/log" | tail -n 1) || refuse 'the gate does not say what passed'

# (in a folder of its own, so that an archive may have any name)
name=$(basename -- "$archive" .tar.gz)
whole=$room/archive/$name
mkdir -p "$whole/scripts" "$whole/bin" && cp -r LICENSE README.md docs examples "$whole" || exit 1
for script in boot disk driver ebc_dxe firmware sign signed; do cp "scripts/$script.sh" "$whole/scripts" || exit 1; done
for program in $(git ls-files bin | sed "s,^bin/,,"); do cp "crates/$program/out/$program" "$whole/bin" || refuse "the gate built no $program"; done
printf '%s\n' "commit $commit" "kit $kit" "gate $passed" >"$whole/RELEASE"
cd "$whole" && find . -type f ! -name SHA256SUMS -printf '%P\n' | LC_ALL=C sort | xargs -d '\n' sha256sum >SHA256SUMS || exit 1
tar -C "$room/archive" --sort=name --owner=0 --group=0 --numeric-owner --mtime="@$(git -C "$room/clone" log -1 --format=%ct)" -cf - -- "$name" |
  gzip -n >"$archive" || refuse "$archive can't be written"
