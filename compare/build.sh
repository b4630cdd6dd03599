#!/bin/sh
# Builds the oracle: a program that answers the commands of PROTOCOL.md with crate pdb 0.8.0 itself.
#
#   build.sh SOURCE OUT
#
# SOURCE  the folder of the crate's published source, the one that holds src/common.rs and src/tpi/
# OUT     gets four programs: oracle (release: no debug assertions, sums wrap)
#                              oracle-debug (debug assertions and overflow checks on)
#                              speed (release): the crate's half of speed.sh
#                              called (release): the same through calls, for pane.sh
#
# Wanted on the machine: rustc, and the two libraries that the crate stands on. On Debian 12:
#   apt-get install rustc librust-scroll-dev librust-fallible-iterator-dev
# The crate was published against scroll 0.11; Debian 12 has scroll 0.10.1, which is what is built here.
set -e
if [ $# -ne 2 ]; then
  echo "usage: build.sh SOURCE OUT" >&2
  exit 2
fi
source=$(cd "$1" && pwd)
here=$(cd "$(dirname "$0")" && pwd)
mkdir -p "$2"
out=$(cd "$2" && pwd)

# 1. The two libraries, as Debian keeps them: a folder with one folder for each.
registry=$(dpkg -L librust-scroll-dev 2>/dev/null | sed -n 's,/scroll-0.10.1$,,p' | head -n 1)
if [ -z "$registry" ] || [ ! -d "$registry/fallible-iterator-0.2.0" ] || ! command -v rustc >/dev/null; then
  echo "build.sh: first apt-get install rustc librust-scroll-dev librust-fallible-iterator-dev" >&2
  exit 1
fi

# 2. The published files that the type part needs, copied as they are.
files="common source tpi/mod tpi/data tpi/header tpi/id tpi/primitive tpi/constants msf/mod msf/page_list"
rm -rf "$out/src" "$out/release" "$out/debug"
mkdir -p "$out/src/tpi" "$out/src/msf" "$out/release" "$out/debug"
for f in $files; do
  cp "$source/src/$f.rs" "$out/src/$f.rs"
done

# 3. The driver. Most of what it asks is private to the crate's modules, so four of the copies get
#    child modules, declared after their last line. Nothing that was published is altered.
cp "$here"/driver/*.rs "$out/src/"
reach() {
  printf '\n#[path = "%s/src/%s.rs"]\npub(crate) mod %s;\n' "$out" "$2" "$2" >> "$out/src/$1.rs"
}
reach tpi/mod tpi_access
reach tpi/data data_access
reach tpi/id id_access
reach msf/mod msf_access
reach tpi/mod speed_header
reach tpi/data speed_data
for f in $files; do
  cmp -n "$(stat -c %s "$source/src/$f.rs")" "$source/src/$f.rs" "$out/src/$f.rs"
done

# 4. Two builds.
library() { # folder name source flags...
  d=$1 name=$2 from=$3
  shift 3
  rustc --crate-type rlib --crate-name "$name" --edition 2018 --cfg 'feature="std"' --cap-lints allow "$@" \
    "$registry/$from/src/lib.rs" -o "$d/lib$name.rlib"
}
build() { # folder flags...
  d=$out/$1
  shift
  library "$d" scroll scroll-0.10.1 "$@"
  library "$d" fallible_iterator fallible-iterator-0.2.0 "$@"
  program "$d" oracle "$@"
}
program() { # folder name flags...
  d=$1 name=$2
  shift 2
  rustc --crate-type bin --crate-name "$name" --edition 2018 --cap-lints allow "$@" \
    --extern scroll="$d/libscroll.rlib" --extern fallible_iterator="$d/libfallible_iterator.rlib" \
    "$out/src/$name.rs" -o "$d/$name"
}
build release -C opt-level=3
program "$out/release" speed -C opt-level=3 -C codegen-units=1
program "$out/release" called -C opt-level=3 -C codegen-units=1
build debug -C opt-level=0 -C debug-assertions=on -C overflow-checks=on
cp "$out/release/oracle" "$out/oracle"
cp "$out/debug/oracle" "$out/oracle-debug"
cp "$out/release/speed" "$out/speed"
cp "$out/release/called" "$out/called"
echo "built $out/oracle, $out/oracle-debug, $out/speed and $out/called"
