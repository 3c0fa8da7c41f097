#!/usr/bin/env bash
# Makes the corpus: each C file as clang 19 writes it for RV64IM at -O0, -O1 and -O2, some with debug information too, and the answers of a
# native compiler. A module with undef or with a built-in beyond the subset isn't kept, nor one that is the same as that of the level below.
# build.sh FOLDER: writes FOLDER/NAME.LEVEL.ll, FOLDER/NAME.calls and FOLDER/NAME.answers. CLANG names another clang 19; ANSWERS=0 makes no answers.
set -eu
if [ $# != 1 ] || [ ! -d "$1" ]; then
    echo 'build.sh FOLDER: the folder that is to have the modules, the lists and the answers' >&2
    exit 3
fi
clang=${CLANG:-clang-19}
if ! "$clang" --version 2> /dev/null | grep -q 'version 19\.'; then
    echo "build.sh: there is no clang 19 as $clang (in Debian it is the package clang-19)" >&2
    exit 4
fi
to=$(realpath "$1")
cd "$(dirname "$0")"
# What clang leaves behind where it fails, a script and a text, goes into a folder of this run's own.
TMPDIR=$(mktemp -d)
export TMPDIR
trap 'rm -rf "$TMPDIR"' EXIT
# (the folder that debug information names is none of the machine's)
flags=(--target=riscv64-unknown-linux-gnu -march=rv64im -mabi=lp64 -ffreestanding -S -emit-llvm -fno-vectorize -fno-slp-vectorize
    -fno-unroll-loops -fdebug-compilation-dir=. -w)
# The built-ins of the subset, and those whose calls are dropped.
known='^@llvm\.((memcpy\.p0|memmove\.p0|memset)\.p0\.i(32|64)|[su](max|min)\.i[0-9]+|abs\.i[0-9]+|(lifetime|dbg)\..*|assume|experimental\.noalias\.scope\.decl)$'
for file in *.c; do
    name=${file%.c}
    levels='O0 O1 O2'
    case $name in gcd | sort | strings | structs) levels='O0 O0-g O1 O2 O2-g' ;; esac
    cp "$name.calls" "$to/$name.calls"
    if [ "${ANSWERS:-1}" = 1 ]; then python3 answers.py "$file" "$name.calls" > "$to/$name.answers"; fi
    for level in $levels; do
        out=$to/$name.$level.ll
        debug=()
        case $level in *-g) debug=(-g) ;; esac
        "$clang" "${flags[@]}" "${debug[@]}" "-${level%-g}" "$file" -o "$out"
        beyond=$(grep -Eow "undef|@llvm\.[a-z0-9.]+" "$out" | grep -Evm1 "$known" || true)
        if [ -n "$beyond" ]; then
            echo "$name.$level has $beyond"
            rm "$out"
        elif [ "$level" = O2 ] && cmp -s "$out" "$to/$name.O1.ll"; then
            rm "$out"
        fi
    done
done
cp odd.ll "$to/odd.ll"
cp odd.calls "$to/odd.calls"
python3 odd_answers.py > "$to/odd.answers"
