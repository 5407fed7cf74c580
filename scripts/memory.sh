#!/usr/bin/env bash
# Refuses each allocation of `ebc` in turn, one a run, over jobs of all commands. Each run has to give the whole answer, that is the
# status, the output and the files of a run that is refused nothing, or has to end with status 6, say so on standard error, print
# nothing and leave all files as they were.
#
# Prints a line for each job: its words, how many allocations were refused, and after how many of these the answer was status 6.
# Ends with status 0 where all runs do as they have to, and else names each job with one that doesn't. The one word is the program;
# without it crates/ebc/out/ebc is tried, and is proved and built first where it isn't current. Needs cc, and takes a minute.
set -u
top=$(CDPATH='' cd -- "$(dirname -- "${BASH_SOURCE[0]}")/.." >/dev/null && pwd -P)
program=$top/crates/ebc/out/ebc
if [ $# = 0 ]; then
  . "$top/scripts/program.sh"
  build ebc || exit 1
else
  program=$(realpath -e -- "$1") || exit 1
fi

room=$(mktemp -d) || exit 1
trap 'rm -rf "$room"' EXIT
cd "$room" || exit 1
failed=0
all=0
fail() { printf 'memory: %s\n' "$*"; failed=1; }

# The allocator of the C library, which refuses the call of the number REFUSED, counted from 1 since the program began, and then
# writes a byte to the descriptor 9.
cc -O2 -shared -fPIC -x c -o refusing.so - <<'C' || exit 1
#include <errno.h>
#include <stdlib.h>
#include <unistd.h>

void *__libc_malloc(size_t);
void *__libc_calloc(size_t, size_t);
void *__libc_realloc(void *, size_t);
void *__libc_memalign(size_t, size_t);

static unsigned long asked, refused;

__attribute__((constructor)) static void begin(void) {
    const char *number = getenv("REFUSED");
    refused = number ? strtoul(number, NULL, 10) : 0;
    asked = 0;
}

static int refuse(void) {
    if (++asked != refused || write(9, "!", 1) != 1) return 0;
    errno = ENOMEM;
    return 1;
}

void *malloc(size_t size) { return refuse() ? NULL : __libc_malloc(size); }
void *calloc(size_t count, size_t size) { return refuse() ? NULL : __libc_calloc(count, size); }
void *realloc(void *old, size_t size) { return refuse() ? NULL : __libc_realloc(old, size); }
void *aligned_alloc(size_t alignment, size_t size) { return refuse() ? NULL : __libc_memalign(alignment, size); }
int posix_memalign(void **place, size_t alignment, size_t size) {
    void *found = refuse() ? NULL : __libc_memalign(alignment, size);
    if (!found) return ENOMEM;
    *place = found;
    return 0;
}
C

# The files of all jobs. What a job writes is named `out`, and is there before.
mkdir before
cp "$top"/examples/{driver,pair,plain}/*.* before
echo old >before/out
echo 'ebc: error: memory ran out' >refusal

# Puts back all files as they were before.
restore() { rm -rf files && cp -r before files; }

# Does words with the allocation of this number refused, none for 0. A byte in `mark` says that one was.
run() {
  (cd files && exec timeout -k 1 10 env LD_PRELOAD="$room/refusing.so" REFUSED="$1" "$program" "${@:2}") >printed 2>said 9>mark
  status=$?
}

# Whether the last run was refused memory, as it has to tell that; and whether it gave the whole answer of its job.
is_refusal() { [ "$status" = 6 ] && [ ! -s printed ] && cmp -s said refusal && diff -r before files >/dev/null; }
is_whole() { [ "$status" = "$wanted" ] && cmp -s printed whole && says_no_other && diff -r after files >/dev/null; }

# Whether the last run said on standard error what is said of its job, or less for want of memory: a general line and its page, or nothing.
says_no_other() { ! grep -vxF -f complaint said | grep -qvE '^[^ ]+: error: |^  see docs/'; }

# Does words with each allocation refused in turn, up to the first amiss. The first word is the status of the whole answer.
job() {
  local wanted=$1 number=0 refusals=0
  shift
  restore
  run 0 "$@"
  [ "$status" = "$wanted" ] || { fail "$*: status $status, not $wanted, where no memory is refused"; return; }
  rm -rf after
  mv printed whole && mv said complaint && mv files after
  restore
  while run $((number + 1)) "$@" && [ -s mark ]; do
    number=$((number + 1))
    if is_refusal; then
      refusals=$((refusals + 1))
    elif is_whole; then
      restore
    else
      break
    fi
  done
  if ! is_whole; then
    fail "$*: allocation $number: status $status, and neither the whole answer nor a refusal alone"
  elif [ "$refusals" = 0 ]; then
    fail "$*: no run ends with status 6"
  fi
  printf '%s: %d refused, %d of status 6\n' "$*" "$number" "$refusals"
  all=$((all + number))
}

driver='driver.efi driver.notes'
job 0 check $driver
job 0 run 32 $driver driver.script 1000
job 0 run 64 $driver driver.script 1000
job 0 twin $driver driver.script 1000
job 0 list driver.efi
job 0 asm driver.asm out
job 0 link driver.plan out
job 0 sample 3
job 0 infer $driver
job 0 pair consumer.efi consumer.notes consumer.script provider.efi provider.notes provider.script pair.binds 1000
job 0 rom wrap 8086 1234 driver.efi out
job 0 rom list driver.rom
job 0 rom take driver.rom 0 out
job 0 check add.bin
job 1 check end.bin
job 2 check
job 3 check add.bin driver.notes
job 3 asm add.bin out
job 9 check absent
printf 'all: %d refused in %d seconds\n' "$all" "$SECONDS"
exit "$failed"
