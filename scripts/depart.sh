#!/usr/bin/env bash
# Runs random neutral programs on EDK2's interpreter, built for IA32 and for X64, with junk wherever the calling conventions of UEFI leave a part
# of a number open: the upper bytes of R7 behind a native call and of a narrow parameter, and memory that AllocatePool hands out. A program that
# then does another thing at one width than at the other, or than the model, and of which ebc_lint doesn't warn, ends this script with status 1.
#
#     EDK2=FOLDER scripts/depart.sh [PROGRAMS [SEED]]
#
# PROGRAMS is how many are made, 2000 if left out. Each program that departs is left in the folder that the last line names.
set -u
top=$(realpath -e -- "$(dirname -- "${BASH_SOURCE[0]}")/..") || exit 1
# shellcheck source=scripts/interpreter.sh
. "$top/scripts/interpreter.sh"
has_interpreter || exit 3
EBC=$(realpath -e -- "${EBC:-$top/bin/ebc}") && EBC_NOTES=$(realpath -e -- "${EBC_NOTES:-$top/bin/ebc_notes}") &&
  EBC_LINT=$(realpath -e -- "${EBC_LINT:-$top/bin/ebc_lint}") || exit 1
room=$(mktemp -d)

# The firmware: what it does in a run stands on standard input, in the order of the run, and each native call and each result is printed.
cat >"$room/host.c" <<'.'
#include "EbcInt.h"
#include "EbcExecute.h"

extern int printf (const char *, ...), scanf (const char *, ...);
extern void exit (int), *malloc (unsigned long), *memset (void *, int, unsigned long), *memcpy (void *, const void *, unsigned long);
extern void *fopen (const char *, const char *);
extern unsigned long fread (void *, unsigned long, unsigned long, void *);

#define WIDTH sizeof (UINTN)
#define JUNK 0xA5A5A5A5A5A5A5A5ULL

EFI_BOOT_SERVICES *gBS;
EFI_GUID gEfiEbcSimpleDebuggerProtocolGuid;
VM_CONTEXT *mVmPtr;

// The driver's image, what its table of methods has the addresses of, that table, and the functions of its thunks.
static UINT8 *image;
static UINT8 methods[64];
static UINTN table[64];
static VOID *thunks[16];
static UINTN thunk_count;

BOOLEAN EFIAPI DebugCodeEnabled (VOID) { return FALSE; }
EFI_STATUS EbcDebugSignalException (EFI_EXCEPTION_TYPE type, EXCEPTION_FLAGS flags, VM_CONTEXT *vm) {
  printf ("exception %d\n", (int)type);
  exit (0);
}
EFI_STATUS EbcCreateThunks (EFI_HANDLE handle, VOID *entry, VOID **thunk, UINT32 flags) {
  thunks[thunk_count] = entry;
  *thunk = &thunks[thunk_count++];
  return EFI_SUCCESS;
}

// A number of so many bytes, with junk in what is left of a word of so many.
static UINT64 with_junk (UINT64 value, UINTN bytes, UINTN word) {
  UINT64 junk = bytes < 8 ? JUNK << 8 * bytes : 0;
  return bytes < word ? value | junk : value;
}
static UINT64 next_number (void) {
  unsigned long long number;
  if (scanf ("%llu", &number) != 1) exit (2);
  return number;
}
static UINT64 read_word (UINTN at, UINTN bytes) {
  UINT64 value = 0;
  memcpy (&value, (void *)at, bytes);
  return value;
}

// Enters a function with so many arguments, which stand on standard input: the bytes of each number, those of its slot, and the number. Of 0
// bytes it is the table, or else the handle.
static UINT64 enter (UINT8 *function, UINTN count) {
  UINT64 *stack = malloc (0x20000);
  VM_CONTEXT vm, *before = mVmPtr;
  UINTN at = (UINTN)stack + 0x1F000;
  memset (&vm, 0, sizeof vm);
  memset (stack, 0xAF, 0x20000);
  vm.Gpr[0] = at - 16;
  for (UINTN k = 1; k < 8; k++) vm.Gpr[k] = JUNK + k;
  for (UINTN k = 0; k < count; k++) {
    UINTN bytes = next_number (), slot = next_number ();
    UINT64 value = next_number ();
    if (slot == 0) slot = WIDTH;
    value = bytes == 0 ? value ? (UINTN)table : 7 : with_junk (value, bytes, slot);
    memcpy ((void *)at, &value, slot);
    at += slot;
  }
  vm.Ip = function;
  vm.StackTop = stack;
  vm.StackRetAddr = vm.Gpr[0];
  vm.StackMagicPtr = (UINTN *)stack;
  *vm.StackMagicPtr = VM_STACK_KEY_VALUE;
  if (EbcExecute (&vm) != EFI_SUCCESS) { printf ("stopped\n"); exit (0); }
  mVmPtr = before;
  return (UINT64)vm.Gpr[7];
}

// A native call: what its method does stands on standard input.
VOID EbcLLCALLEX (VM_CONTEXT *vm, UINTN target, UINTN stack, VOID *frame, UINT8 size) {
  UINTN at = stack, args[16], kinds[16], count, bytes, left;
  UINT64 result;
  char step;
  if (scanf (" call %llu", &result) != 1 || target != (UINTN)&methods[result]) { printf ("another method\n"); exit (0); }
  printf ("call %d", (int)result);
  count = next_number ();
  for (UINTN k = 0; k < count; k++) {
    kinds[k] = next_number ();
    bytes = kinds[k] == 2 ? 8 : WIDTH;
    args[k] = at;
    if (kinds[k] == 0 || kinds[k] == 2) printf (" int %llu", (unsigned long long)read_word (at, bytes));
    if (kinds[k] == 1) printf (" out");
    if (kinds[k] == 3) printf (" entry");
    if (kinds[k] == 4) printf (" size");
    at += bytes;
  }
  printf ("\n");
  left = next_number ();
  while (left--) {
    if (scanf (" %c", &step) != 1) exit (2);
    if (step == 'o') {
      UINTN k = next_number ();
      bytes = next_number ();
      UINT64 value = next_number ();
      memcpy ((void *)read_word (args[k], WIDTH), &value, bytes ? bytes : WIDTH);
    } else if (step == 'm') {
      UINTN k = next_number (), length = next_number ();
      UINTN memory = (UINTN)malloc (length);
      memset ((void *)memory, 0xAF, length);
      memcpy ((void *)read_word (args[k], WIDTH), &memory, WIDTH);
    } else {
      UINTN k = next_number (), many = next_number ();
      result = enter (thunks[k], many);
      printf ("return %llu\n", (unsigned long long)(WIDTH == 4 ? (UINT32)result : result));
    }
  }
  bytes = next_number ();
  result = next_number ();
  vm->Gpr[7] = (INT64)with_junk (result, bytes == 0 ? WIDTH : bytes == 9 ? 0 : bytes, 8);
  vm->Ip += size;
}

int main (int count, char **words) {
  UINT8 *file = malloc (0x100000), *header, *section;
  UINT64 result;
  fread (file, 1, 0x100000, fopen (words[1], "rb"));
  image = malloc (0x200000);
  memset (image, 0, 0x200000);
  header = file + *(UINT32 *)(file + 60);
  section = header + 24 + *(UINT16 *)(header + 20);
  for (UINTN k = *(UINT16 *)(header + 6); k; k--, section += 40) {
    UINT32 size = *(UINT32 *)(section + 8), held = *(UINT32 *)(section + 16);
    memcpy (image + *(UINT32 *)(section + 12), file + *(UINT32 *)(section + 20), size < held ? size : held);
  }
  for (UINTN k = 0; k < 64; k++) table[k] = (UINTN)&methods[k];
  result = enter (image + *(UINT32 *)(header + 40), next_number ());
  printf ("end %llu\n", (unsigned long long)(WIDTH == 4 ? (UINT32)result : result));
  return 0;
}
.
build_interpreter Ia32 "$room/host.c" "$room/host.32" && build_interpreter X64 "$room/host.c" "$room/host.64" || exit 1

cat >"$room/hunt.py" <<'PYTHON'
"""Makes programs, checks and runs them, and compares: how many, the seed, and the programs of ebc."""
import os, random, re, shutil, subprocess, sys

BYTES = {'i8': 1, 'i16': 2, 'i32': 4, 'i64': 8}
LETTER = {'i8': 'b', 'i16': 'w', 'i32': 'd', 'i64': 'q', 'n': 'n', 'stat': 'n'}
# Wants of natural numbers, with the bytes that a caller in C gives and that a method in C takes; 0 is a natural number's.
NUMBERS = [('n int:0..255', 1), ('n int:0..65535', 2), ('n int:0..4294967295', 4), ('n int:0..1000', 0), ('q int:0..4294967295', 8)]
RESULTS = [('status', 0), ('int:0..255', 1), ('int:0..65535', 2), ('int:0..4294967295', 4)]
OUTS = [('i8', 1), ('i16', 2), ('i32', 4), ('i64', 8), ('n', 0), ('stat', 0)]

def natural(cells):
    """Where fields lie, as pairs, and the size: a struct of C."""
    places, ends, aligns = [], {4: 0, 8: 0}, {4: 1, 8: 1}
    for cell in cells:
        at = {}
        for w in (4, 8):
            size = BYTES.get(cell, w)
            at[w] = -(-ends[w] // size) * size
            ends[w], aligns[w] = at[w] + size, max(aligns[w], size)
        places.append(at)
    pair = lambda at: ((at[8] - at[4]) // 4, 2 * at[4] - at[8])
    size = {w: -(-ends[w] // aligns[w]) * aligns[w] for w in (4, 8)}
    return [pair(at) for at in places], pair(size), size

def index(pair): return '' if pair == (0, 0) else f'(+{pair[0]},+{pair[1]})'

class Program:
    def __init__(self, seed):
        self.random, self.lines, self.steps, self.script = random.Random(seed), [], [], []
        pick = self.random.choice
        # A careful program cuts each narrow number, and fills what it is handed. Each other one departs now and then.
        self.careful = self.random.random() < 0.75
        # The static object, the memory that AllocatePool hands out, the methods, and the local of each out cell.
        self.cells = [pick(list(LETTER)) for _ in range(self.random.randint(3, 8))]
        self.places, self.size, self.bytes = natural(self.cells)
        self.room_cells = [pick(['i8', 'i16', 'i32', 'i64', 'n', 'stat']) for _ in range(self.random.randint(2, 5))]
        self.room_places, self.room_size, self.room_bytes = natural(self.room_cells)
        # (that a field is filled in one object and not in another one isn't warned of)
        self.filled = [self.careful or self.random.random() < 0.8 for _ in self.room_cells]
        size = f'n size:{self.room_size[0]},{self.room_size[1]}'
        self.methods = [('AllocatePool', ['n int:0..15', size, 'n out:ptr:Room'], ('status', 0)), ('Register', ['n entry'], ('status', 0))]
        for k in range(self.random.randint(2, 4)):
            wants = [pick(NUMBERS)[0] if self.random.random() < 0.7 else 'n out:' + pick(OUTS)[0] for _ in range(self.random.randint(0, 4))]
            self.methods.append((f'Method{k}', wants, pick(RESULTS)))
        self.shown = [('Show', ['n int:0..4294967295'], ('status', 0)), ('ShowWide', ['q int:0..18446744073709551615'], ('status', 0))]
        self.methods += self.shown
        self.locals = ['ptr:Room'] + [cell for cell, _ in OUTS]
        self.local_places, self.local_size, _ = natural(self.locals)
        self.params = [pick(NUMBERS) for _ in range(self.random.randint(1, 3))]
        self.depth, self.labels = (0, 0), 0
        self.write()

    def say(self, text): self.lines.append('  ' + text)
    def store(self, register, cell, base, place):
        self.say(f'MOV{LETTER[cell]}w @{base}{index(place)}, {register}')

    def number(self, register):
        """A number into a register: a constant, or a field."""
        if self.random.random() < 0.4:
            value = self.random.choice([0, 1, 5, 127, 128, 200, 255, 1000, 32767, 65535, 0x7FFFFFFF, 0xFFFFFFFF])
            self.say(f'MOVI{"q"}{"w" if value < 32768 else "q"} {register}, {value}')
        else:
            k = self.random.choice([k for k, cell in enumerate(self.cells) if cell != 'stat'] or [None])
            if k is None: return self.say(f'MOVIqw {register}, 3')
            self.say('MOVRELd R6, data')
            self.say(f'MOV{LETTER[self.cells[k]]}w {register}, @R6{index(self.places[k])}')

    def arithmetic(self):
        self.number('R4')
        self.number('R5')
        bits = self.random.choice(['32', '64'])
        op = self.random.choice(['ADD', 'SUB', 'MUL', 'MULU', 'AND', 'OR', 'XOR', 'NOT', 'NEG', 'EXTNDB', 'EXTNDW', 'EXTNDD', 'SHL', 'SHR', 'ASHR', 'DIVU', 'MODU'])
        if op in ('SHL', 'SHR', 'ASHR'):
            self.say(f'MOVIqw R5, {self.random.randrange(int(bits))}')
        if op in ('DIVU', 'MODU'):
            self.say(f'MOVIqw R5, {self.random.randint(1, 300)}')
        self.say(f'{op}{bits} R4, R5')
        self.keep('R4')

    def keep(self, register, status=False, most=None):
        """A number or a status in a register into a field that may hold it; a number of which the most is known may be natural."""
        fits = [k for k, cell in enumerate(self.cells) if (cell == 'stat') == status]
        if not fits: return
        k = self.random.choice(fits)
        self.say('MOVRELd R6, data')
        if self.cells[k] == 'n' and (most is None or most > 0xFFFFFFFF):
            self.say(f'MOVdw {register}, {register}')
        self.store(register, self.cells[k], 'R6', self.places[k])

    def branch(self):
        self.number('R4')
        self.labels += 1
        op = self.random.choice(['eq', 'ulte', 'ugte', 'lte', 'gte'])
        self.say(f'CMPI{self.random.choice(["32", "64"])}w{op} R4, {self.random.randint(0, 300)}')
        self.say(f'JMP8{self.random.choice(["cs", "cc"])} l{self.labels}')
        label = self.labels
        self.arithmetic()
        self.lines.append(f'l{label}:')

    def local(self, k): return tuple(a + b for a, b in zip(self.local_places[k], self.depth))

    def call(self, number, give):
        """A native call: `give` pushes an argument that is a number."""
        method, wants, (result, bytes_) = self.methods[number]
        outs, args = [], []
        for k, want in reversed(list(enumerate(wants))):
            kind, _, what = want.partition(' ')
            if what.startswith('out:'):
                cell = self.locals.index(what[4:])
                self.say(f'MOVqw R4, R0{index(self.local(cell))}')
                outs.append((k, what[4:]))
            elif what == 'entry':
                self.say('MOVRELd R4, cell')
                self.say('MOVnw R4, @R4')
            else:
                give(k, what)
            self.say(f'PUSH{"n" if kind == "n" else "64"} R4')
            self.depth = (self.depth[0] + (kind == 'n'), self.depth[1] + 8 * (kind == 'q'))
            args.append(1 if what.startswith('out:') else 3 if what == 'entry' else 4 if what.startswith('size:') else 2 if kind == 'q' else 0)
        self.say(f'MOVnw R5, @R0(+{self.depth[0] + self.local_size[0] + 1},+{self.depth[1] + self.local_size[1] + 16})')
        self.say(f'CALL32EXa @R5{index((number, 0))}')
        if self.depth != (0, 0):
            self.say(f'MOVqw R0, R0{index(self.depth)}')
        self.depth = (0, 0)
        value = self.random.choice([0, 1, 5, 255, 1000, 65535, 0xFFFFFFFF])
        if bytes_: value %= 256 ** bytes_
        elif result == 'status': value = 0
        step, texts, enters = [], [], []
        for k, cell in outs:
            if cell.startswith('ptr'):
                step.append(f'm {k} {{room}}')
                texts.append(f'{k} ptr {{object}} 0')
            else:
                given = self.random.choice([0, 1, 77, 200, 255]) if cell != 'stat' else 0
                step.append(f'o {k} {BYTES.get(cell, 0)} {given}')
                texts.append(f'{k} {"status ok" if cell == "stat" else "int"} {given}')
        if method == 'Register':
            given = [self.random.choice([0, 1, 200, 255]) for _ in self.params]
            step.append(f'e 0 {len(given)} ' + ' '.join(f'{b or 9} {8 if want[0] == "q" else 0} {v}' for (want, b), v in zip(self.params, given)))
            enters = ['tick ' + ', '.join(f'int {v}' for v in given)]
        self.steps.append((number, list(reversed(args)), step, bytes_, value))
        self.script.append((method, wants, texts, enters, 'any' if result == 'none' else f'status ok {value}' if result == 'status' else f'int {value}'))

    def plain_argument(self, k, what):
        most = int(what.split('..')[1]) if '..' in what else 0xFFFFFFFF
        if self.random.random() < 0.5:
            self.say(f'MOVIqw R4, {self.random.randint(0, min(most, 255))}')
        else:
            cells = [i for i, cell in enumerate(self.cells) if BYTES.get(cell, 9) == 1 or most > 60000 and BYTES.get(cell, 9) == 2]
            if not cells: return self.say('MOVIqw R4, 9')
            i = self.random.choice(cells)
            self.say('MOVRELd R6, data')
            self.say(f'MOV{LETTER[self.cells[i]]}w R4, @R6{index(self.places[i])}')

    def some_call(self):
        number = self.random.randrange(2, len(self.methods) - len(self.shown))
        self.call(number, self.plain_argument)
        result, bytes_ = self.methods[number][2]
        cut = 'n' if result == 'status' else {1: 'b', 2: 'w', 4: 'd'}[bytes_]
        if self.careful:
            self.say(f'MOV{cut}w R7, R7')
        elif self.random.random() < 0.6:
            self.say(f'MOV{"n" if result == "status" else self.random.choice("nbwd")}w R7, R7')
        if self.random.random() < 0.7:
            self.keep('R7', result == 'status', 256 ** bytes_ - 1)
        outs = [want[6:] for want in self.methods[number][1] if want.startswith('n out:')]
        if outs:
            cell = self.random.choice(outs)
            self.say(f'MOV{LETTER[cell]}w R4, @R0{index(self.local(self.locals.index(cell)))}')
            self.keep('R4', cell == 'stat', 1 if cell == 'n' else None)

    def fresh(self):
        self.call(0, lambda k, what: self.say('MOVIqw R4, 4') if k == 0 else self.say(f'MOVInw R4, (+{self.room_size[0]},+{self.room_size[1]})'))
        self.labels += 1
        label = self.labels
        self.say('MOVnw R7, R7')
        self.say('CMPI64weq R7, 0')
        self.say(f'JMP8cc l{label}')
        for k, cell in enumerate(self.room_cells):
            if self.filled[k]:
                self.say('MOVIqw R4, 17' if cell != 'stat' else 'MOVIqw R4, 0')
                self.say(f'MOVnw R5, @R0{index(self.local(0))}')
                self.store('R4', cell, 'R5', self.room_places[k])
        k = self.random.randrange(len(self.room_cells))
        self.say(f'MOVnw R5, @R0{index(self.local(0))}')
        self.say(f'MOV{LETTER[self.room_cells[k]]}w R4, @R5{index(self.room_places[k])}')
        self.keep('R4', self.room_cells[k] == 'stat', 1 if self.room_cells[k] == 'n' else None)
        self.lines.append(f'l{label}:')

    def show(self):
        """Each number of the static object is handed to the firmware, so that what a run makes is seen."""
        for k, cell in enumerate(self.cells):
            if cell == 'stat': continue
            def give(_, __):
                self.say('MOVRELd R6, data')
                self.say(f'MOV{LETTER[cell]}w R4, @R6{index(self.places[k])}')
            self.call(len(self.methods) - (1 if cell == 'i64' else 2), give)

    def write(self):
        self.lines = ['.global main', 'main:']
        self.say('MOVRELd R7, cell')
        self.say('BREAK 5')
        self.say(f'MOVqw R0, R0(-{self.local_size[0]},-{self.local_size[1]})')
        self.say('MOVIqw R4, 0')
        for cell, place in list(zip(self.locals, self.local_places))[1:]:
            self.store('R4', cell, 'R0', place)
        for _ in range(self.random.randint(4, 14)):
            self.random.choice([self.arithmetic, self.arithmetic, self.branch, self.some_call, self.some_call, self.fresh,
                                lambda: self.call(1, None)])()
        self.show()
        self.say(f'MOVqw R0, R0{index(self.local_size)}')
        self.say('MOVIqw R7, 0')
        self.say('RET')
        self.lines.append('tick:')
        at = (0, 16)
        for k, (want, bytes_) in enumerate(self.params):
            self.say(f'MOV{"q" if want[0] == "q" else "n"}w R4, @R0{index(at)}')
            if self.careful: self.say(f'MOV{ {1: "b", 2: "w"}.get(bytes_, "d")}w R4, R4')
            elif self.random.random() < 0.5: self.say(f'MOV{self.random.choice("bwd")}w R4, R4')
            at = (at[0] + (want[0] == 'n'), at[1] + 8 * (want[0] == 'q'))
            if self.random.random() < 0.3: self.say('ADD32 R4, R4')
            self.keep('R4', most=0xFFFFFFFF)
        self.say('MOVIqw R7, 0')
        self.say('RET')
        self.lines += ['.data', f'data: .zero {self.bytes[8]}', *([f'  .zero {-self.bytes[8] % 8}'] if self.bytes[8] % 8 else []), 'cell: .thunk tick']

    def labels_text(self):
        out = []
        def row(kind, **keys):
            out.append(f'[[{kind}]]')
            for key, value in keys.items():
                out.append(f'{key} = ' + ('[' + ', '.join(f'"{x}"' if isinstance(x, str) else str(x) for x in value) + ']' if isinstance(value, (list, tuple)) else
                                          f'"{value}"' if isinstance(value, str) else str(value)))
        def shape(name, cells, places, size, prefix='f'):
            row('shape', name=name, size=list(size), fields=[f'{prefix}{k} {p[0]} {p[1]} {c}' for k, (c, p) in enumerate(zip(cells, places))])
        shape('Data', self.cells, self.places, self.size)
        shape('Room', self.room_cells, self.room_places, self.room_size)
        shape('Locals', self.locals, self.local_places, self.local_size, 'l')
        shape('Table', [f'method:{m}' for m, _, _ in self.methods], [(k, 0) for k in range(len(self.methods))], (len(self.methods), 0), 'm')
        row('static', place='data', shape='Data')
        row('thunk', place='cell', function='tick')
        row('function', name='main', locals='Locals', params=['n handle', 'n ptr:Table'], result='status')
        row('function', name='tick', params=[want for want, _ in self.params], result='status')
        for method, wants, (result, _) in self.methods:
            row('signature', name=method.lower(), method=method, params=list(wants), result=result)
        return '\n'.join(out) + '\n'

    def script_text(self, calls):
        """The script, with the arguments of the calls that a run has made."""
        out = ['version = 1', 'args = ["handle 0", "ptr 1 0"]', '[[object]]', 'shape = "Table"', 'count = 1',
               'cells = [' + ', '.join(f'"0 m{k} method {m}"' for k, (m, _, _) in enumerate(self.methods)) + ']']
        made = 2
        for k, (method, wants, texts, enters, result) in enumerate(self.script):
            seen = iter(re.findall(r'int \d+|out|entry|size', calls[k]) if k < len(calls) else [])
            said = {'entry': 'entry tick', 'size': f'size {self.room_size[0]},{self.room_size[1]}'}
            args = ', '.join(f'"{said.get(word, word)}"' for word in (next(seen, 'int 0') for _ in wants))
            out += ['[[call]]', f'signature = "{method.lower()}"', f'args = [{args}]', f'result = "{result}"']
            if enters: out.append('enter = [' + ', '.join(f'"{t}"' for t in enters) + ']')
            if texts: out.append('out = [' + ', '.join(f'"{t.format(object=made)}"' for t in texts) + ']')
            if method == 'AllocatePool':
                out += ['[[call.make]]', 'shape = "Room"', 'count = 1']
                made += 1
        return '\n'.join(out) + '\n'

    def host_text(self, width):
        out = ['2', '0 0 0', '0 0 1']
        for number, kinds, step, bytes_, value in self.steps:
            out.append(f'call {number} {len(kinds)} ' + ' '.join(map(str, kinds)))
            out.append(str(len(step)))
            out += [s.format(room=self.room_bytes[width]) for s in step]
            out.append(f'{bytes_} {value}')
        return '\n'.join(out) + '\n'

def run(words, text=None):
    return subprocess.run(words, input=text, capture_output=True, text=True)

def model(report):
    """The calls and the results of a run of the model, as the host prints them."""
    out = []
    for line in report.splitlines():
        words = line.split(' ')
        if words[0] == 'call':
            rest = re.sub(r'\b(entry|size) [\w,]+', r'\1', ' '.join(words[3:]))
            out.append(('call ' + words[2], rest))
        elif words[0] == 'return':
            out.append(('return', words[-1]))
        elif words[0] == 'end':
            out.append(('end', ' '.join(words[3:])))
    return out

def host(program, report):
    out = []
    for line in report.splitlines():
        word, _, rest = line.partition(' ')
        if word == 'call':
            number, _, rest = rest.partition(' ')
            out.append(('call ' + program.methods[int(number)][0].lower(), rest))
        else:
            out.append((word, rest if word == 'return' else 'finished status ok ' + rest if word == 'end' else rest))
    return out

def main(count, first, ebc, ebc_notes, ebc_lint, room):
    tally = {}
    left = room + '/departed'
    os.mkdir(left)
    for seed in range(first, first + count):
        os.chdir(room)
        program = Program(seed)
        for name, text in (('p.asm', '\n'.join(program.lines) + '\n'), ('p.labels', program.labels_text()),
                           ('p.plan', 'objects = ["p.obj"]\nentry = "main"\nsubsystem = 11\nbase = 65536\n')):
            open(name, 'w').write(text)
        made = run([ebc, 'asm', 'p.asm', 'p.obj']).returncode or run([ebc, 'link', 'p.plan', 'p.efi']).returncode
        noted = run([ebc_notes, 'p.plan', 'p.labels'])
        if made or noted.returncode:
            kind = 'not assembled' if made else noted.stdout.split(' ')[0] + ' ' + noted.stdout.strip().split(' ')[-1]
            tally[kind] = tally.get(kind, 0) + 1
            if os.environ.get('SHOW'): print(seed, noted.stdout, noted.stderr)
            continue
        open('p.notes', 'w').write(noted.stdout)
        seen = [host(program, run([f'{room}/host.{w}', 'p.efi'], program.host_text(w // 8)).stdout) for w in (32, 64)]
        open('p.script', 'w').write(program.script_text([rest for word, rest in seen[1] if word.startswith('call ')]))
        twin = run([ebc, 'twin', 'p.efi', 'p.notes', 'p.script', '100000'])
        wanted = model(run([ebc, 'run', '32', 'p.efi', 'p.notes', 'p.script', '100000']).stdout)
        warned = run([ebc_lint, 'p.efi', 'p.notes']).stdout
        if twin.returncode:
            kind = 'the model ends otherwise'
        elif seen[0] == seen[1] == wanted:
            kind = 'warned of and alike' if warned else 'alike'
        else:
            kind = 'warned of and departed' if warned else 'departed'
        tally[kind] = tally.get(kind, 0) + 1
        if kind in ('departed', 'the model ends otherwise'):
            folder = f'{left}/{seed}'
            os.mkdir(folder)
            for name in ('p.asm', 'p.labels', 'p.notes', 'p.script', 'p.plan', 'p.efi'): shutil.copy(name, folder)
            open(folder + '/seen', 'w').write('\n'.join(map(str, [('model', 'IA32', 'X64'), *zip(wanted, *seen)])) + '\n' + twin.stdout)
    for kind in sorted(tally): print(f'{tally[kind]:6} {kind}')
    return 1 if tally.get('departed') or tally.get('the model ends otherwise') else 0

sys.exit(main(int(sys.argv[1]), int(sys.argv[2]), *sys.argv[3:]))
PYTHON
python3 "$room/hunt.py" "${1:-2000}" "${2:-1}" "$EBC" "$EBC_NOTES" "$EBC_LINT" "$room"
status=$?
if [ "$status" = 0 ]; then rm -rf "$room"; else echo "what departs stands in $room/departed"; fi
exit "$status"
