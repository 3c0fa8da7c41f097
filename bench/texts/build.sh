#!/usr/bin/env bash
# Makes the texts that come from C anew, as clang 19 writes them.
# build.sh: writes lists.*.ll and loops.*.ll beside it. CLANG names another clang 19.
set -eu
if [ $# != 0 ]; then
    echo 'build.sh takes no words' >&2
    exit 3
fi
clang=${CLANG:-clang-19}
if ! "$clang" --version 2> /dev/null | grep -q 'version 19\.'; then
    echo "build.sh: there is no clang 19 as $clang (in Debian it is the package clang-19)" >&2
    exit 4
fi
cd "$(dirname "$0")"
# (the folder that debug information names is none of the machine's)
flags=(--target=riscv64-unknown-linux-gnu -march=rv64im -mabi=lp64 -ffreestanding -S -emit-llvm -fno-vectorize -fno-slp-vectorize
    -fno-unroll-loops -fdebug-compilation-dir=bench/texts -w)
for text in lists.O0 lists.O1 lists.O2-g loops.O0 loops.O1-g loops.O2; do
    level=${text#*.} debug=()
    case $level in *-g) debug=(-g) ;; esac
    "$clang" "${flags[@]}" "${debug[@]}" "-${level%-g}" "${text%%.*}.c" -o "$text.ll"
done
