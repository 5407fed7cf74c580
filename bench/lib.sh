# shellcheck shell=bash
# What the scripts of this folder share. Each reads this file first.
#
# Nothing is built. A program is that of the tree, if it is current, or the one that a variable names: EBC, MACHINE_BENCH.
#
# A row has a work and its size, the microseconds of the processor that it takes, user and system, and the same of its peer. The ratio is how
# many times as long as the peer it takes. The growth is the time for a unit of size, by that at the first size of the series.
#
# The commands of a row run in turns, each once a turn. From the time of a command is taken what it takes on the smallest input, so no start
# counts unless the row says so. Each number is the median of the turns, the ratio that of their ratios. TURNS says how many; it is 7 if left out.
set -euo pipefail
bench=$(CDPATH='' cd -- "$(dirname -- "${BASH_SOURCE[0]}")" >/dev/null && pwd -P)
top=${bench%/*}
turns=${TURNS:-7}
# shellcheck source=scripts/program.sh
. "$top/scripts/program.sh"

die() {
  echo "$(basename -- "$0"): $*" >&2
  exit 1
}
need() {
  local tool
  for tool; do command -v "$tool" >/dev/null || die "needs $tool"; done
}

# The path of a program, by its name.
program() {
  local named=${1^^}
  if [ -n "${!named-}" ]; then
    realpath -e -- "${!named}" || die "$named names no program"
  elif is_current "$1"; then
    echo "$top/crates/$1/out/$1"
  else
    die "$1 isn't built from these sources; the gate builds it, bin/ebc builds ebc, and $named may name another one"
  fi
}

work=$(mktemp -d)
trap 'rm -rf "$work"' EXIT
cd "$work"
start() {
  mkdir -p "$work/python"
  cat >"$work/python/inputs.py" <<'PYTHON'
"""Images and notes."""
import struct

def u16(n): return struct.pack('<H', n & 0xFFFF)
def u32(n): return struct.pack('<I', n & 0xFFFFFFFF)
def u64(n): return struct.pack('<Q', n & 0xFFFFFFFFFFFFFFFF)

CODE, DATA = 0x60000020, 0xC0000040

def padded(data, unit): return data.ljust(-(-len(data) // unit) * unit, b'\0')

def image(sections, relocs=(0, 0), align=0x1000, unit=0x200):
    """An image of sections, each a name, its place, its bytes and its flags, which is entered at the first of them. `relocs` are the
    place and the size of its base relocations, `align` and `unit` the alignment of sections in memory and in the file."""
    at = -(-(64 + 24 + 240 + 40 * len(sections)) // unit) * unit
    end = max(place + len(data) for _, place, data, _ in sections)
    optional = bytearray(240)
    for offset, form, value in ((0, 'H', 0x020B), (16, 'I', sections[0][1]), (24, 'Q', 0x10000), (32, 'I', align), (36, 'I', unit),
                                (56, 'I', -(-end // align) * align), (60, 'I', at), (68, 'H', 11), (108, 'I', 16),
                                (152, 'I', relocs[0]), (156, 'I', relocs[1])):
        struct.pack_into('<' + form, optional, offset, value)
    head = [b'MZ'.ljust(60, b'\0') + u32(64), b'PE\0\0' + u16(0x0EBC) + u16(len(sections)) + bytes(12) + u16(240) + u16(0x22), bytes(optional)]
    raw = []
    for name, place, data, flags in sections:
        held = padded(data, unit)
        head.append(struct.pack('<8sIIII12xI', name, len(data), place, len(held), at, flags))
        raw.append(held)
        at += len(held)
    return padded(b''.join(head), unit) + b''.join(raw)

def code_image(code, flags=CODE): return image([(b'.text', 0x1000, code, flags)])

def blocks(places):
    """The base relocations of addresses of 64 bits at these places, which ascend."""
    pages = {}
    for place in places:
        pages.setdefault(place & ~0xFFF, []).append(0xA000 | place & 0xFFF)
    return b''.join(struct.pack(f'<II{len(on)}H', page, 8 + 2 * len(on), *on) for page, on in pages.items())

def function(name, place, end, level=0, need=0, result='any'):
    """The table of a function in notes."""
    return ['[[function]]', f'name = "{name}"', f'place = {place}', f'end = {end}', f'level = {level}', f'need = [0, {need}]', f'result = "{result}"']

def write(name, data):
    with open(name, 'wb') as file:
        file.write(data if isinstance(data, bytes) else '\n'.join([*data, '']).encode())

def calls(count, adds):
    """The code and the notes of functions of which each calls the next and adds a number so often."""
    size, results = 8 + 6 * adds, [count - 1]
    for k in range(count - 2, -1, -1):
        results.append(results[-1] + adds * k)
    code, notes, at = [], ['version = 1', 'entry = "f0"'], 0x1000
    for k in range(count):
        level, result = count - 1 - k, results[count - 1 - k]
        body = b'\x83\x10' + u32(size - 6) + (b'\x77\x34' + u16(k) + b'\x4c\x47') * adds if level else b'\x77\x37' + u16(k)
        code.append(body + b'\x04\x00')
        notes += function(f'f{k}', at, at + len(code[-1]), level, 16 * level, f'int:{result}..{result}')
        at += len(code[-1])
    return b''.join(code), notes

def moves(count):
    """The code and the notes of one function of so many instructions."""
    code = b'\x77\x34\x05\x00' * (count - 1) + b'\x04\x00'
    return code, ['version = 1', 'entry = "main"', *function('main', 0x1000, 0x1000 + len(code))]
PYTHON
  cat >"$work/python/turns.py" <<'PYTHON'
"""Microseconds of the processor that two commands take, and the ratio of them: how many turns, then each command and its start, a text each."""
import resource, shlex, statistics, subprocess, sys

def took(words):
    if not words:
        return 0.0
    before = resource.getrusage(resource.RUSAGE_CHILDREN)
    subprocess.run(words, stdout=subprocess.DEVNULL, stderr=subprocess.DEVNULL, stdin=subprocess.DEVNULL)
    after = resource.getrusage(resource.RUSAGE_CHILDREN)
    return 1e6 * (after.ru_utime - before.ru_utime + after.ru_stime - before.ru_stime)

ours, ours_start, peer, peer_start = (shlex.split(word) for word in sys.argv[2:])
every = [[took(words) for words in (ours, ours_start, peer, peer_start)] for _ in range(int(sys.argv[1]))]
first = [a - b for a, b, _, _ in every]
second = [c - d for _, _, c, d in every]
median = statistics.median
print(round(median(first)), round(median(second)), f'{median(a / b for a, b in zip(first, second)):.2f}' if peer and all(second) else '-')
PYTHON
}
start
# A program of Python on standard input, with these words.
python() { PYTHONPATH=$work/python PYTHONDONTWRITEBYTECODE=1 python3 - "$@"; }

# The words of a command as one text.
command_text() { [ $# = 0 ] || printf '%q ' "$@"; }
turns() {
  PYTHONPATH=$work/python python3 "$work/python/turns.py" "$turns" "$(command_text "${ours[@]}")" "$(command_text "${ours_start[@]}")" \
    "$(command_text "${peer[@]}")" "$(command_text "${peer_start[@]}")"
}

# Rows of a work at a size, at four and at sixteen times it: its name, the unit of its size, that size, and its peer, if it has one. The
# script says how. `inputs SIZE` writes the files, and sets `units`, how many units there are. The commands are `ours` and `peer`, on the
# smallest input `ours_start` and `peer_start`, which are empty for none. `right` fails if the program doesn't answer as it should.
# The heads of the table come before the first row, unless ROWS_ALONE is set.
ours=() ours_start=() peer=() peer_start=() units=0
series() {
  local name=$1 unit=$2 size=$3 other=${4-} took others ratio first=0
  if [ -z "${ROWS_ALONE-}" ]; then
    printf '| Work | Size | µs | Peer | µs | Ratio | Growth |\n|---|---|---|---|---|---|---|\n'
    ROWS_ALONE=1
  fi
  for size in "$3" $((4 * $3)) $((16 * $3)); do
    inputs "$size"
    right || die "$name at $size isn't answered as it should be"
    read -r took others ratio < <(turns)
    [ "$first" != 0 ] || first=$(awk "BEGIN { print $took / $units }")
    printf '| %s | %d %s | %d | %s | %s | %s | %s |\n' "$name" "$units" "$unit" "$took" "$other" "${other:+$others}" "${other:+$ratio}" \
      "$(awk "BEGIN { print ($first > 0) ? sprintf(\"%.2f\", $took / $units / $first) : \"-\" }")"
  done
}
