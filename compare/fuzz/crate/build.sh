#!/bin/sh
# Builds crate pdb 0.8.0 with the comparing half of this folder as one static library, with libFuzzer's counters and comparisons in it.
#
#   build.sh SOURCE OUT
#
# SOURCE  the folder of the crate's published source, as compare/build.sh takes it
# OUT     gets libcrate.a
#
# What is wanted on the machine is what compare/build.sh wants. The counters are those of LLVM's own pass, which stable rustc takes by -C passes: no
# -Z flag and no RUSTC_BOOTSTRAP is needed. Release: no debug assertions, sums wrap, as the oracle is built.
set -e
if [ $# -ne 2 ]; then
  echo "usage: build.sh SOURCE OUT" >&2
  exit 2
fi
source=$(cd "$1" && pwd)
here=$(cd "$(dirname "$0")" && pwd)
mkdir -p "$2"
out=$(cd "$2" && pwd)
registry=$(dpkg -L librust-scroll-dev 2>/dev/null | sed -n 's,/scroll-0.10.1$,,p' | head -n 1)
if [ -z "$registry" ] || [ ! -d "$registry/fallible-iterator-0.2.0" ] || ! command -v rustc >/dev/null; then
  echo "build.sh: first apt-get install rustc librust-scroll-dev librust-fallible-iterator-dev" >&2
  exit 1
fi
files="common source tpi/mod tpi/data tpi/header tpi/id tpi/primitive tpi/constants msf/mod msf/page_list"
rm -rf "$out/src"
mkdir -p "$out/src/tpi" "$out/src/msf"
for f in $files; do
  cp "$source/src/$f.rs" "$out/src/$f.rs"
done
for f in tpi_access data_access id_access msf_access; do
  cp "$here/../../driver/$f.rs" "$out/src/"
done
cp "$here"/*.rs "$out/src/"
reach() {
  printf '\n#[path = "%s/src/%s.rs"]\npub(crate) mod %s;\n' "$out" "$2" "$2" >> "$out/src/$1.rs"
}
reach tpi/mod tpi_access
reach tpi/data data_access
reach tpi/id id_access
reach msf/mod msf_access
reach tpi/mod flat_tpi
reach tpi/data flat_data
# the published lines stand first and unaltered
for f in $files; do
  cmp -n "$(stat -c %s "$source/src/$f.rs")" "$source/src/$f.rs" "$out/src/$f.rs"
done
library() { # name source
  rustc --crate-type rlib --crate-name "$1" --edition 2018 --cfg 'feature="std"' --cap-lints allow -C opt-level=3 \
    "$registry/$2/src/lib.rs" -o "$out/lib$1.rlib"
}
library scroll scroll-0.10.1
library fallible_iterator fallible-iterator-0.2.0
rustc --crate-type staticlib --crate-name crate_fuzz --edition 2021 --cap-lints allow -C opt-level=3 -C codegen-units=1 \
  -C passes=sancov-module -C llvm-args=-sanitizer-coverage-level=4 -C llvm-args=-sanitizer-coverage-inline-8bit-counters \
  -C llvm-args=-sanitizer-coverage-pc-table -C llvm-args=-sanitizer-coverage-trace-compares \
  --extern scroll="$out/libscroll.rlib" --extern fallible_iterator="$out/libfallible_iterator.rlib" "$out/src/fuzz.rs" -o "$out/libcrate.a"
echo "built $out/libcrate.a"
