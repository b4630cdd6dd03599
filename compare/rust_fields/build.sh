#!/bin/sh
# Builds the programs that have both crates in them, or one each:
#
#   build.sh SOURCE OUT [LIBRARY]
#
# SOURCE   the folder of crate pdb's published source, as compare/build.sh wants it
# OUT      gets fields (both crates, record by record), day_ours and day_pdb (a generator's day with one of them), and where LLVM's library is installed
#          (llvm-14-dev of Debian 12) day_llvm, the same day by it
# LIBRARY  the folder of libpdb_types.a, lib/x86_64-linux of the repository if it is left out
#
# What compare/build.sh wants is wanted here too. It is called first.
set -e
if [ $# -lt 2 ]; then
  echo "usage: build.sh SOURCE OUT [LIBRARY]" >&2
  exit 2
fi
here=$(cd "$(dirname "$0")" && pwd)
root=$(cd "$here/../.." && pwd)
library=$(cd "${3:-$root/lib/x86_64-linux}" && pwd)
"$here/../build.sh" "$1" "$2"
out=$(cd "$2" && pwd)

# crate pdb as a library: build.sh's copies, which nothing published is altered in, with one child module more
cp "$here/pdb.rs" "$here/fields_access.rs" "$out/src/"
printf '\n#[path = "%s/src/fields_access.rs"]\npub(crate) mod fields_access;\n' "$out" >> "$out/src/tpi/data.rs"
d=$out/release
fast="-C opt-level=3 -C codegen-units=1"
rustc --crate-type rlib --crate-name pdb --edition 2018 --cap-lints allow $fast \
  --extern scroll="$d/libscroll.rlib" --extern fallible_iterator="$d/libfallible_iterator.rlib" "$out/src/pdb.rs" -o "$d/libpdb.rlib"

# ours, as cargo builds it for a release
rustc --crate-type rlib --crate-name pdb_types --edition 2021 $fast \
  -L native="$library" -l static=pdb_types "$root/rust/src/lib.rs" -o "$d/libpdb_types.rlib"

for program in fields day_ours day_pdb; do
  rustc --crate-type bin --crate-name $program --edition 2021 $fast -L dependency="$d" -L native="$library" \
    --extern pdb="$d/libpdb.rlib" --extern pdb_types="$d/libpdb_types.rlib" "$here/$program.rs" -o "$out/$program"
done
echo "built $out/fields, $out/day_ours and $out/day_pdb"

config=$(command -v llvm-config-14 || command -v llvm-config || true)
if [ -z "$config" ] || ! command -v g++ >/dev/null; then
  echo "not built: day_llvm, since there is no llvm-config or no g++"
  exit 0
fi
g++ -O2 $("$config" --cxxflags) -fno-exceptions -fno-rtti "$here/day_llvm.cpp" \
  $("$config" --link-static --ldflags --libs debuginfocodeview --system-libs) -o "$out/day_llvm"
echo "built $out/day_llvm, LLVM $("$config" --version)"
