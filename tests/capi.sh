#!/usr/bin/env bash
# The C interface from outside: the archive is built, the example programs are held to their stored outputs, and the archive is held to
# models written from the rules, of one channel and of two, on files of sox and ffmpeg among others. Prints the seed, and else only what
# fails. --long and --seed N are handed on.
set -euo pipefail
cd "$(dirname "${BASH_SOURCE[0]}")/.."
source tests/x86.sh
made=$(mktemp -d)
trap 'rm -rf "$made"' EXIT
# The gate builds no archive: rt proves capi, and what of its libraries the gate left unbuilt, once more.
(cd crates/capi && rt lib) > "$made/log" 2>&1 || { cat "$made/log"; exit 1; }
archive=crates/capi/out/libcapi.a
for example in minimal crossover; do
    "${CC[@]}" "${CFLAGS[@]}" "examples/$example.c" "$archive" -o "$made/$example"
    "${RUN[@]}" "$made/$example" | diff "examples/$example.expected" -
done
"${CC[@]}" "${CFLAGS[@]}" tests/files.c "$archive" -o "$made/files"
"${RUN[@]}" "$made/files" tests/files/*.wav | diff <(python3 tests/wave_files.py tests/files/*.wav) -
"${CC[@]}" "${CFLAGS[@]}" -Itests/model tests/differential/*.c tests/model/tree.c "$archive" -lm -o "$made/differential"
"${RUN[@]}" "$made/differential" "$@"
