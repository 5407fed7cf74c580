# Runs signed and unsigned images of examples/uefi on OVMF with Secure Boot, from a file and from a card's option ROM. Read by firmware.sh.
#
# The keys are made here, and put into a copy of the firmware's variables: nothing is kept. Debian's OVMF verifies files, and runs each
# option ROM whatever it has for a signature (PcdOptionRomImageVerificationPolicy 0). DENY_X64 and DENY_IA32 name builds of OVMF with
# EDK2's own value, 4: with those it is tried which ROMs are verified.

quiet() { "$@" >said 2>&1 || { cat said >&2; exit 1; }; }

# Keys: the platform's, the one that may change db, the one that images are signed by, and one that the firmware doesn't know.
make_keys() {
  local name
  for name in PK KEK db other; do
    quiet openssl req -new -x509 -newkey rsa:2048 -nodes -sha256 -days 3650 -subj "/CN=firmware.sh $name/" \
      -keyout "$name.key" -out "$name.crt"
    quiet cert-to-efi-sig-list "$name.crt" "$name.esl"
  done
}

# A copy of an empty store of variables with the keys in it, without a boot.
enroll() {
  local name
  cp "$1" variables || exit 1
  for name in PK KEK db; do quiet flash-var variables "$name" "$name.esl"; done
}

# The images as they are, signed, signed by the key that isn't known, signed so that the signature holds in a ROM, and so by that key.
make_images() {
  local name kind
  cp "$top/examples/uefi/hello.efi" "$top/examples/uefi/card.efi" . || exit 1
  for name in hello card; do
    quiet osslsigncode sign -key db.key -certs db.crt -h sha256 -in "$name.efi" -out "$name.signed.efi"
    quiet osslsigncode sign -key other.key -certs other.crt -h sha256 -in "$name.efi" -out "$name.other.efi"
    quiet bash "$top/scripts/sign.sh" db.key db.crt "$name.efi" "$name.fit.efi"
    quiet bash "$top/scripts/sign.sh" other.key other.crt "$name.efi" "$name.otherfit.efi"
  done
  for kind in '' .signed .fit .otherfit; do
    quiet "$ebc" rom wrap 8086 100e "card$kind.efi" "card$kind.rom"
    quiet "$ebc" rom take "card$kind.rom" 0 "card$kind.taken.efi"
  done
}

say() {  # what was tried, what is wanted, what came
  if [ "$2" = "$3" ]; then
    echo "$1: $3"
  else
    echo "$1: $3, and '$2' was expected"
    status=1
  fi
}

# Whether what `rom take` gives of a ROM is still signed: it is all from the image on to the end of its last block, as firmware hashes it.
try_taken() {
  local kind came wanted
  for kind in '' .signed .fit .otherfit; do
    wanted='not verified'
    [ "$kind" != .fit ] || wanted=verified
    osslsigncode verify -CAfile db.crt "card$kind.taken.efi" >said 2>&1 && came=verified || came='not verified'
    say "what is taken of card$kind.rom" "$wanted" "$came"
  done
}

# (that no other image is left to start, or that the firmware's own menu comes)
menu='No bootable option|starting Boot0000 "UiApp"'

try_files() {
  local width=$1 start=$2 kind came wanted
  for kind in '' .signed .other; do
    wanted='Access Denied'
    [ "$kind" != .signed ] || wanted='Hello from ebc'
    rm -rf disk && mkdir -p disk/EFI/BOOT && cp "hello$kind.efi" "disk/EFI/BOOT/$start" || exit 1
    enroll "$variables"
    boot "$width" "$menu" -drive file=fat:rw:disk,format=raw,if=ide
    came=nothing
    grep -q 'HARDDISK.*: Access Denied$' console && came='Access Denied'
    grep -qx 'Hello from ebc' console && came='Hello from ebc'
    say "$width, hello$kind.efi" "$wanted" "$came"
  done
}

# With policy 0 each ROM is run: one that isn't signed shows it.
try_rom() {
  local width=$1 policy=$2 kind=$3 wanted=$4 came=nothing
  enroll "$variables"
  boot "$width" "$menu" -device "e1000,romfile=card$kind.rom"
  grep -q 'No bootable option' console && came=refused
  grep -qx 'card: started' console && came='card: started'
  say "$width, policy $policy, card$kind.rom" "$wanted" "$came"
}

try_signed() {
  local width deny start
  ebc=${EBC:-$top/bin/ebc}
  make_keys
  make_images
  try_taken
  for width in ia32 x64; do
    case $width in
      ia32) start=BOOTIA32.EFI deny=${DENY_IA32:-} ;;
      x64) start=BOOTX64.EFI deny=${DENY_X64:-} ;;
    esac
    choose "$width" secure
    try_files "$width" "$start"
    try_rom "$width" 0 '' 'card: started'
    [ -n "$deny" ] || continue
    code=$deny
    try_rom "$width" 4 '' refused
    try_rom "$width" 4 .signed refused
    try_rom "$width" 4 .fit 'card: started'
    try_rom "$width" 4 .otherfit refused
  done
}
