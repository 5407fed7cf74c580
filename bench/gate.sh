#!/usr/bin/env bash
# Runs the gate from nothing in a clone of the last commit, and prints the processor seconds that each crate took of it:
# its proofs, its tests and its must-fail edits apart, with its lines and functions. What the gate prints goes
# to the file that the one word names, if any. docs/GATE.md has the table of the last run and the rule. The seconds of a
# process are read every second, so each may be one too few.
set -u
top=$(CDPATH='' cd -- "$(dirname -- "${BASH_SOURCE[0]}")/.." >/dev/null && pwd -P)
log=$(realpath -m -- "${1:-/dev/null}")
room=$(mktemp -d)
git clone -q "$top" "$room/clone" || exit 1
ticks=$(getconf CLK_TCK)

# What a process of the prover works on: its crate, and proofs, tests or edits.
work_of() {
  local words cwd kind=proofs
  words=$(tr '\0' ' ' <"/proc/$1/cmdline" 2>/dev/null) || return 1
  cwd=$(readlink "/proc/$1/cwd" 2>/dev/null) || return 1
  case $words in *' --test '*) kind=tests ;; esac
  case $cwd in */rt-edit-*) kind=edits ;; esac
  words=${words#*--crate-name }
  echo "${words%% *} $kind"
}

# A line for each process of the prover that the gate runs: its parent, itself, its own ticks and those of the children that
# have ended, and its work.
sample() {
  local pid session=$1 work
  for pid in $(pgrep -x rattle -s "$session"); do
    work=$(work_of "$pid") || continue
    awk -v work="$work" '{ print $4, $1, $14 + $15 + $16 + $17, work }' "/proc/$pid/stat" 2>/dev/null
  done
}

# (the gate gets a session of its own, whose number is that of its first process)
(cd "$room/clone" && exec setsid rt ci) >"$room/log" 2>&1 &
session=$!
trap 'kill "$session" 2>/dev/null; rm -rf "$room"' EXIT
while kill -0 "$session" 2>/dev/null; do
  sample "$session"
  echo
  sleep 1
done >"$room/samples"

# The ticks of a process that the gate started, with those of its living children, are the most that any sample had.
awk -v ticks="$ticks" '
  function take(pid) {
    for (pid in own) if (!(parent[pid] in own) && sum[pid] > most[pid, work[pid]]) most[pid, work[pid]] = sum[pid]
    split("", own); split("", sum); split("", parent); split("", work)
  }
  NF == 0 { take(); next }
  { parent[$2] = $1; own[$2] = $3; work[$2] = $4 " " $5; sum[$2] += $3; sum[$1] += $3 }
  END {
    for (key in most) { split(key, part, SUBSEP); total[part[2]] += most[key] }
    for (what in total) print what, total[what] / ticks
  }' "$room/samples" >"$room/totals"

# How many functions each crate has, as its proof says.
awk '/^logic=proved functions=/ { split($2, part, "="); count = part[2] } /^rt: [a-z0-9_]+ proved/ { print $2, count }' "$room/log" >"$room/functions"

printf '| Crate | Lines | Functions | Proofs | Tests | Edits |\n|---|---|---|---|---|---|\n'
cd "$room/clone" || exit 1
while read -r crate; do
  lines=$(git ls-files "crates/$crate/*.rt" "crates/$crate/*.antt" | xargs cat | wc -l)
  awk -v crate="$crate" -v lines="$lines" '
    $1 != crate { next }
    FNR == NR { functions = $2; next }
    { took[$2] = $3 }
    END { printf "| `%s` | %d | %s | %.0f | %.0f | %.0f |\n", crate, lines, functions, took["proofs"], took["tests"], took["edits"] }' "$room/functions" "$room/totals"
done < <(grep -oE '^[a-z0-9_]+' crates.txt)
awk '{ took[$2] += $3 } END { printf "| all | | | %.0f | %.0f | %.0f |\n", took["proofs"], took["tests"], took["edits"] }' "$room/totals"
grep -E '^rt: .*(FAILED|NOT PROVED|NOT REFUSED|BAD EDIT)' "$room/log"
tail -n 1 "$room/log"
cat "$room/log" >"$log"
