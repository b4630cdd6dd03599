#!/bin/sh
# Counts instructions of walking, indexing and paging through a stream of any size: from C through the five exports of R-14, and by crate pdb 0.8.0, as
# Rust inlines it and through calls. Prints a table of instructions a record, and on x86-64 also the time.
#
#   pane.sh SPEED CALLED [STREAM..]
#
# SPEED, CALLED  the programs that build.sh made
# STREAM         raw type streams; without any: samples/gen400-x64.tpi
#
# Wanted: gcc, and valgrind. Each operation is done 10 and 20 times; the difference over 10
# times the records is what one record costs (see speed.sh). On a processor other than x86-64: x86_64-linux-gnu-gcc and qemu-x86_64, SPEED and CALLED built
# for x86-64, each operation once and twice, and no time.
set -e
if [ $# -lt 2 ]; then
  echo "usage: pane.sh SPEED CALLED [STREAM..]" >&2
  exit 2
fi
speed=$1 called=$2
shift 2
root=$(cd "$(dirname "$0")/.." && pwd)
work=$(mktemp -d)
trap 'rm -rf "$work"' EXIT
if [ $# -eq 0 ]; then
  set -- "$root/samples/gen400-x64.tpi"
fi

native=$(uname -m)
if [ "$native" = x86_64 ]; then
  compiler=gcc n=10
  run() { "$@"; }
  count() { # program operation times stream
    valgrind --tool=callgrind --callgrind-out-file=/dev/null "$1" "$2" "$3" < "$4" 2>&1 >/dev/null | sed -n 's/.*Collected : //p'
  }
else
  compiler=x86_64-linux-gnu-gcc n=1
  below=$(dirname "$(dirname "$(realpath "$($compiler -print-file-name=libc.so.6)")")")
  single=-one-insn-per-tb
  qemu-x86_64 --help | grep -q one-insn-per-tb || single=-singlestep
  run() { qemu-x86_64 -L "$below" "$@"; }
  count() {
    qemu-x86_64 -L "$below" $single -d exec,nochain -D /dev/fd/3 "$1" "$2" "$3" < "$4" 3>&1 >/dev/null | grep -c '^Trace'
  }
fi
$compiler -std=c99 -O2 -Wall -Wextra -Werror "$root/compare/pane.c" "$root/lib/x86_64-linux/libpdb_types.a" -o "$work/pane"

word() { # stream offset: the u32 there
  od -An -t u4 -j "$2" -N 4 "$1" | tr -d ' '
}
costs() { # program operation stream records
  more=$(($(count "$1" "$2" $((2 * n)) "$3") - $(count "$1" "$2" $n "$3")))
  awk -v more="$more" -v over=$((n * $4)) 'BEGIN { printf "%.1f", more / over }'
}
nanoseconds() { # program operation stream records: the least of five, 100 times
  for i in 1 2 3 4 5; do
    began=$(date +%s%N)
    "$1" "$2" 100 < "$3" >/dev/null
    echo $(($(date +%s%N) - began))
  done | sort -n | head -n 1 | awk -v over=$((100 * $4)) '{ printf ", %.1f ns", $1 / over }'
}

echo "| stream | operation | from C | crate, inlined | crate, through calls | checksums |"
echo "|---|---|---|---|---|---|"
for stream; do
  records=$(($(word "$stream" 12) - $(word "$stream" 8)))
  for op in walk index find; do
    line="| $(basename "$stream") | $op |" first='' same=alike
    for program in "$work/pane" "$speed" "$called"; do
      sum=$(run "$program" $op 2 < "$stream")
      [ "$sum" = "${first:=$sum}" ] || same=differ
      line="$line $(costs "$program" $op "$stream" $records)"
      [ "$native" != x86_64 ] || line="$line$(nanoseconds "$program" $op "$stream" $records)"
      line="$line |"
    done
    echo "$line $same |"
  done
done
