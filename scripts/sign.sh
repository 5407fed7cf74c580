#!/usr/bin/env bash
# Signs an image so that its signature holds in an option ROM too. Firmware hashes a ROM's image up to the end of its last block, and
# zeros behind a signature change what is hashed. So the image is padded before it is signed, until 56 bytes of the ROM's header and the
# signed file fill whole blocks of 512 bytes. How long a signature is hangs on the key alone: it is measured by a first one.
#
#     bash scripts/sign.sh KEY CERTIFICATE IMAGE SIGNED
#
# It takes Debian's package osslsigncode. Status 2: the words are others. Any other but 0: the image isn't signed, and why is said.
set -eu
[ $# = 4 ] || { echo 'usage: sign.sh KEY CERTIFICATE IMAGE SIGNED' >&2; exit 2; }
key=$1 certificate=$2 image=$3 signed=$4
[ -e /usr/bin/osslsigncode ] || { echo "sign.sh: osslsigncode is not there: install it by 'apt-get install osslsigncode'" >&2; exit 3; }
room=$(mktemp -d)
trap 'rm -rf "$room"' EXIT
sign() {
  osslsigncode sign -key "$key" -certs "$certificate" -h sha256 -in "$1" -out "$2" >"$room/said" 2>&1 || { cat "$room/said" >&2; exit 1; }
}
size() { stat -c %s -- "$1"; }
cp -- "$image" "$room/image"
sign "$room/image" "$room/once"
truncate -s $(($(size "$room/image") + (-56 - $(size "$room/once") & 511))) "$room/image"
sign "$room/image" "$room/signed"
[ $((($(size "$room/signed") + 56) % 512)) = 0 ] || { echo "sign.sh: $image, signed, doesn't fill its blocks" >&2; exit 1; }
cp -- "$room/signed" "$signed"
