#!/bin/sh
# Prints, from one run: the processor's instructions for each instruction of the stack machine, counted by valgrind's
# callgrind (two lengths of run, so that the program's start cancels out), and the time of the same work on the machine
# and in Lua 5.4. Build first: tools/build machine_bench. Needs valgrind and lua5.4.
set -eu
here=$(dirname "$0")
bin=$here/../target/bin/machine_bench
lua=$(command -v lua5.4 || command -v lua)

refs() { valgrind --tool=callgrind --callgrind-out-file=/dev/null "$bin" "$1" 2>&1 | sed -n 's/.*Collected : //p'; }
seconds() {
    start=$(date +%s%N)
    "$@" >/dev/null
    end=$(date +%s%N)
    awk -v a="$start" -v b="$end" 'BEGIN { printf "%.3f", (b - a) / 1e9 }'
}

short=20000 long=120000 each=16 rounds=20000000
a=$(refs $short)
b=$(refs $long)
awk -v a="$a" -v b="$b" -v n=$(((long - short) * each)) 'BEGIN { printf "processor instructions per machine instruction: %.2f\n", (b - a) / n }'
echo "machine, $rounds rounds: $(seconds "$bin" $rounds) s"
echo "lua 5.4, $rounds rounds: $(seconds "$lua" "$here/sum.lua" $rounds) s"
