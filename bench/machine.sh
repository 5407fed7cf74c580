#!/usr/bin/env bash
# Times the loop of crates/machine_bench at both widths.
# shellcheck source=bench/lib.sh
. "$(dirname -- "${BASH_SOURCE[0]}")/lib.sh"
need python3
machine=$(program machine_bench)

inputs() { units=$1 ours=("$machine" "$width" "$1"); }
right() { :; }

for width in 32 64; do
  ours_start=("$machine" "$width" 1)
  series "the machine, width $width" steps 3750000
done
