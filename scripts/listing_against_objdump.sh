#!/usr/bin/env bash
# Compares a listing with GNU objdump: builds an image, lists it, and looks for each slot's word and op name at its
# address in the disassembly.
set -euo pipefail

usage() {
    cat <<'TEXT'
usage: listing_against_objdump.sh THREADMILL

Builds an image by the program THREADMILL, lists it, and looks for each slot's word and op name at its address in what
GNU objdump has (Debian: binutils-riscv64-linux-gnu). It isn't part of the gate.

It ends with status 0 where all agree, with 1 where something differs, and with 2 where nothing could be compared.
TEXT
}

die() {
    echo "listing_against_objdump.sh: $*" >&2
    exit 2
}

case ${1:-} in --help | -h) usage; exit 0 ;; esac
[ $# -eq 1 ] || { usage >&2; exit 2; }
program=$(command -v "$1") || die "there is no program $1"
program=$(realpath "$program")
objdump=$(command -v riscv64-linux-gnu-objdump || command -v riscv64-unknown-elf-objdump) ||
    die "there is no objdump for riscv64 (Debian: binutils-riscv64-linux-gnu)"

work=$(mktemp -d)
trap 'rm -rf "$work"' EXIT
printf 'cores = 2\nthreads = 2\nline = 64\n' > "$work/a.toml"
printf '%s\n' 'template t' 'passes 2' 'window 0 true 1' 'window 2 own 8' 'case a' 'body all' \
    'emit addi x27, x0, -2048' 'mix 100 alu 4 load 3 store 3 branch 1' \
    'case b' 'body all' 'mix 250 alu 1 load 1 store 1 branch 1' > "$work/a.tm"

"$program" build "$work/a.toml" "$work/a.tm" "$work/a.elf" --seed 1
"$program" list "$work/a.elf" > "$work/listing"
"$objdump" -t "$work/a.elf" > "$work/symbols"
"$objdump" -d -M no-aliases,numeric "$work/a.elf" > "$work/code"

python3 - "$work" <<'PYTHON'
import re
import sys

work = sys.argv[1]
starts = {}
for line in open(f"{work}/symbols"):
    found = re.match(r"([0-9a-f]+) .* tm_s_(\d+)_(\d+)$", line)
    if found:
        starts[int(found[2]), int(found[3])] = int(found[1], 16)
code = {}
for line in open(f"{work}/code"):
    found = re.match(r"\s*([0-9a-f]+):\s+([0-9a-f]{8})\s+(\S+)", line)
    if found:
        code[int(found[1], 16)] = found[2], found[3]

compared = wrong = 0
case = hart = None
for line in open(f"{work}/listing"):
    words = line.split()
    if not words:
        continue
    if words[0] == "case":
        case = int(words[1])
    elif words[0] == "hart":
        hart = int(words[1])
    elif words[0].isdigit():
        compared += 1
        at = starts[hart, case] + 4 * int(words[0])
        if code.get(at) != (words[1], words[2]):
            wrong += 1
            print(f"hart {hart} case {case} slot {words[0]}: listed {words[1:3]}, objdump has {code.get(at)}")
print(f"compared {compared} slots, {wrong} differ")
sys.exit(1 if wrong or not compared else 0)
PYTHON
