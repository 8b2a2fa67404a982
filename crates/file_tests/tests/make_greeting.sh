#!/usr/bin/env bash
# Compiles and links greeting.c as the usual tools do, and writes the executable as the table ../src/greeting.rt.
# Where greeting.rt was made: gcc 12.2.0 and GNU ld 2.40 (Debian 12), 2026-12-01. It needs gcc with -m32, and python3.
# The table's header names the tools and the day of the run; `rt fmt` lays the table out.
set -euo pipefail
cd "$(dirname "$0")"
out="$(mktemp)"
trap 'rm -f "$out"' EXIT
gcc -m32 -Os -ffreestanding -fno-pic -no-pie -fno-stack-protector -fno-asynchronous-unwind-tables -nostdlib -static \
    -Wl,-m,elf_i386 -Wl,-Ttext-segment=0x10000 -Wl,-z,noseparate-code -Wl,--build-id=sha1 -Wl,--strip-all \
    greeting.c -o "$out"
readelf --file-header --program-headers "$out"
system="$(. /etc/os-release && echo "${NAME%% *} $VERSION_ID")"
python3 - "$out" "$(gcc -dumpfullversion)" "$(ld --version | sed -n '1s/.* //p')" "$system" "$(date -u +%F)" \
    > ../src/greeting.rt <<'PYTHON'
import sys
data = open(sys.argv[1], 'rb').read()
print('// The executable of tests/greeting.c, as tests/make_greeting.sh made it with gcc %s and GNU ld %s (%s),' % tuple(sys.argv[2:5]))
print('// %s.' % sys.argv[5])
print()
print('pub static GREETING: [u8; %d] = [' % len(data))
for at in range(0, len(data), 16):
    print('    ' + ' '.join('0x%02X,' % byte for byte in data[at:at + 16]))
print('];')
PYTHON
