# Builds a program of the repository where that is due, and runs it. Read by the scripts of bin/, which are named as their
# programs and set `usage` to its line, and by those of bench/; all set `top` to the folder of the repository first.
#
# A program is current where none of the crates that it is made of, and no line of crates.txt that names one of them, is
# newer than the start of the build that made it. Crates that it isn't made of don't count.

# Whether a word can stand for a part of the usage line. A name of a file isn't empty. That a word isn't UTF-8 the program alone sees.
fits() {
  local LC_ALL=C part=$1 word=$2
  case $part in
    VENDOR | DEVICE) [[ $word =~ ^[0-9a-f]{4}$ ]] ;;
    WIDTH) [[ $word =~ ^(32|64)$ ]] ;;
    NUMBER | STEPS) [[ $word =~ ^(0|[1-9][0-9]*)$ ]] ;;
    N | FIRST | LAST) [[ $word =~ ^[1-9][0-9]*$ ]] ;;
    [a-z]*) [ "$word" = "$part" ] ;;
    *) [ -n "$word" ] ;;
  esac
}

# Whether words are a command of the usage line: as many as it has there, each of which can stand for its part.
is_command() {
  local commands command parts index
  IFS='|' read -ra commands <<<"${usage#usage: }"
  for command in "${commands[@]}"; do
    read -ra parts <<<"$command"
    [ $# = ${#parts[@]} ] || continue
    for index in "${!parts[@]}"; do
      fits "${parts[index]}" "${@:index+1:1}" || continue 2
    done
    return 0
  done
  return 1
}

# Runs a program, by its name, on words. It is built first where that is due. If it isn't built, words that are no command are answered
# without it.
run() {
  local name=$1
  shift
  is_command "$@" || is_current "$name" || { echo "$usage" && exit 2; exit 5; }
  build "$name" || exit 10
  exec "$top/crates/$name/out/$name" "$@"
}

# The crates that a crate is made of, itself the last of them, one a line.
crates_of() {
  awk -v wanted="$1" '
    function visit(name,  words, word, w) {
      if (seen[name]++ || !(name in line)) return
      words = split(line[name], word, " ")
      for (w = 2; w <= words; w++) visit(word[w])
      print name
    }
    /^[a-z0-9_]/ { name = $1; sub(/:$/, "", name); line[name] = $0 }
    END { visit(wanted) }' "$top/crates.txt"
}

# The lines of crates.txt that name them.
lines_of() {
  crates_of "$1" | while read -r crate; do grep "^$crate\( [^:]*\)\?:" "$top/crates.txt"; done
}

# Whether a program is current. Where the gate built it there is no file `built`, and the program's own time counts.
is_current() {
  local program=$top/crates/$1/out/$1 built=$top/crates/$1/out/built folders=() crate
  [ -x "$program" ] || return 1
  if [ -e "$built" ] && [ ! "$built" -ot "$program" ]; then
    [ "$(cat "$built")" = "$(lines_of "$1")" ] || return 1
  else
    built=$program
    [ "$top/crates.txt" -nt "$built" ] && return 1
  fi
  while read -r crate; do folders+=("$top/crates/$crate"); done < <(crates_of "$1")
  [ -z "$(find "${folders[@]}" \( -name out -o -name must-fail \) -prune -o -type f -newer "$built" -print -quit)" ]
}

# Builds a program that isn't current, and says every 15 seconds how far that is.
build() {
  local signal status=0 proving='' tree=''
  for signal in HUP INT PIPE TERM; do trap "stop_build $signal" "$signal"; done
  make_current "$1" || status=1
  trap - HUP INT PIPE TERM
  return "$status"
}

# Ends a build by the signal that came, with all that it started. What was proved by then is kept.
stop_build() {
  trap - HUP INT PIPE TERM
  # (rt leads a group of processes once it has begun, and what it started in other groups ends as it does)
  [ -z "$proving" ] || kill -- "-$proving" "$proving" 2>/dev/null
  wait
  [ -z "$tree" ] || rm -rf "$tree"
  kill -s "$1" "$$"
}

# (The functions from here on are called by `build` alone, and each has the names of the one that calls it.)

make_current() {
  # (an earlier kit keeps nothing of a build that is stopped)
  local name=$1 out=$top/crates/$1/out next=0 least=rattle-kit-13f kit
  is_current "$name" && return
  if ! command -v rt >/dev/null; then
    echo "$name: its proofs need the command rt of the Rattle kit, $least or later, on the PATH: install that first" >&2
    return 1
  fi
  kit=$(rt version 2>/dev/null)
  if [ "$(printf '%s\n' "${kit%% *}" "$least" | sort -V | head -n 1)" != "$least" ]; then
    echo "$name: its proofs need the Rattle kit $least or later, and the command rt is that of ${kit:-an unknown kit}: install that first" >&2
    return 1
  fi

  # There is one log, so there is one build at a time. Once another one has ended the program may be there.
  mkdir -p "$out" && exec 9<"$out" || return 1
  while flock -n 9 2>/dev/null; [ $? = 1 ]; do
    if ((SECONDS >= next)); then
      echo "$name: waits for another build of this program" >&2
      next=$((SECONDS + 15))
    fi
    sleep 1
  done
  is_current "$name" || prove
  exec 9<&-
  is_current "$name" || { echo "$name: the program could not be built, as its log says: $out/build.log" >&2; return 1; }
}

# Its crates are proved side by side, on all processors, in a copy of them without what the gate alone tries.
prove() {
  local next=0
  echo "$name: the program is built first: its crates are proved, which takes long from nothing, as README.md says of ebc" >&2
  echo "$name: it may be stopped, since what is proved is kept; its log is $out/build.log" >&2
  # (the time of the file `built` is that of the build's start)
  rm -f "$out/$name"
  lines_of "$name" >"$out/built" && tree=$(mktemp -d) && copy_crates || return 1
  (cd "$tree" && exec setsid rt ci) </dev/null >"$out/build.log" 2>&1 &
  proving=$!
  while kill -0 "$proving" 2>/dev/null; do
    sleep 1
    if ((SECONDS >= next)); then
      echo "$name: $(progress), $((SECONDS / 60)) min $((SECONDS % 60)) s" >&2
      next=$((SECONDS + 15))
    fi
  done
  if wait "$proving" && mv "$tree/crates/$name/out/$name" "$out"; then
    touch -r "$out/built" "$out/$name"
  else
    tail -n 20 "$out/build.log" >&2
  fi
  rm -rf "$tree"
}

copy_crates() {
  local crate part
  cp "$top/HANDLES" "$out/built" "$tree" && mv "$tree/built" "$tree/crates.txt" || return 1
  while read -r crate; do
    mkdir -p "$tree/crates/$crate" || return 1
    for part in "$top/crates/$crate"/*; do
      case ${part##*/} in out | must-fail) ;; *) cp -r "$part" "$tree/crates/$crate" || return 1 ;; esac
    done
  done < <(crates_of "$name")
}

# What a build is at, by what rt has written so far: it says of each crate where it is proved, or was on this machine.
progress() {
  awk '
    FNR == NR { all++; own[$1]; next }
    /^rt: [a-z0-9_]+ (proved|is kept)/ && ($2 in own) { proved++; delete own[$2] }
    END { print (proved ? proved " of " all " crates are proved" : "reads the sources of its " all " crates") }
  ' <(crates_of "$name") "$out/build.log"
}
