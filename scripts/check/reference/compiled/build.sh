#!/bin/sh
# Builds the modules of this folder again: CLANG is clang 22, and WASM_LD its linker for WebAssembly.
set -e
cd "$(dirname "$0")"
object=$(mktemp)
build() {
    name=$1
    source=$2
    target=$3
    link=$4
    shift 4
    "$CLANG" "--target=$target" -Os "$@" -c "$source" -o "$object"
    # shellcheck disable=SC2086
    "$WASM_LD" $link --no-entry --allow-undefined "$object" -o "$name.wasm"
}
build functions functions.c wasm32 ''
build functions64 functions.c wasm64 '-mwasm64'
build features features.c wasm32 '' -mcpu=bleeding-edge
build references references.c wasm32 '' -O0 -mreference-types
build exceptions exceptions.cpp wasm32 '--export=attempt' -fwasm-exceptions -mllvm -wasm-use-legacy-eh=false
build older_exceptions exceptions.cpp wasm32 '--export=attempt' -fwasm-exceptions
rm "$object"
