#!/usr/bin/env bash
# examples/read.sh TEXT [TABLE]: reads a text with the proved program jerread and prints its rows and pool, or the refusal.
# TABLE has a type table and its names as two lines of hexadecimal; without it, the spring booking's. `rt run` in
# crates/jerread makes the program. It is x86-64 code; on another machine Debian's emulator runs it (qemu-user, libc6-amd64-cross).
set -euo pipefail
root=$(cd "$(dirname "$0")/.." && pwd)
[ $# -ge 1 ] || { sed -n '2,4s/^# //p' "$0" >&2; exit 2; }
text=$1
table=${2:-$root/examples/booking/spring.hex}

fail() { echo "examples/read.sh: $1" >&2; exit 1; }

for file in "$text" "$table"; do
    [ -e "$file" ] || fail "there is no file $file"
    [ ! -d "$file" ] || fail "$file is a folder"
    [ -r "$file" ] || fail "$file cannot be read"
done

mapfile -t -n 2 lines <"$table"
[ ${#lines[@]} -eq 2 ] || fail "$table does not have the two lines of a type table and its names"
# A line of jerread's has at most 16,384 digits, which is 8,192 bytes.
digits=$(od -An -v -tx1 -N 8193 <"$text" | tr -d ' \n')
[ ${#digits} -le 16384 ] || fail "$text has over 8,192 bytes, all that jerread takes; the library's calls take 65,536: see examples/c and examples/rust"

program=$root/crates/jerread/out/jerread
[ -f "$program" ] || (cd "$root/crates/jerread" && rt run <stdin >&2)
runner=
[ "$(uname -m)" = x86_64 ] || runner="qemu-x86_64 -L /usr/x86_64-linux-gnu"
printf '%s\n' "${lines[@]}" "$digits" | $runner "$program"
