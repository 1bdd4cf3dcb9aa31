#!/bin/sh
# Builds the program and runs it on real data: 10,000 SIFT descriptors of photographs go in one by one, 1,000 searches follow, and
# each answer is held against the exact one.
#     bench/demo.sh FOLDER
# FOLDER, outside the repository, takes the data. What is needed beside the kit: apt-get install python3-opencv python3-numpy g++
set -eu
here=$(cd "$(dirname "$0")" && pwd)
mkdir -p "$1"
to=$(cd "$1" && pwd)
[ -f "$to/base.u8bin" ] || "$here/sift/make.sh" "$to"
g++ -O3 -march=x86-64-v2 -std=c++17 -pthread "$here/sift/exact.cpp" -o "$to/exact"
"$to/exact" "$to/base.u8bin" "$to/query.u8bin" "$to/exact-10000" 10000
/usr/bin/python3 "$here/sift/script.py" "$to" 10000 60 >"$to/sift.script"
cd "$here/../crates/ann_program"
[ -x out/ann_program ] || rt run -- once 2 2 4 1/1 </dev/null >/dev/null
start=$(date +%s%N)
out/ann_program once 128 32 50 11/10 <"$to/sift.script" >"$to/sift.transcript"
end=$(date +%s%N)
/usr/bin/python3 "$here/sift/script.py" "$to" 10000 60 "$to/sift.transcript" $(((end - start) / 1000000))
