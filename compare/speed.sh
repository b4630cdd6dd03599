#!/bin/sh
# Counts instructions of the port and of crate pdb 0.8.0 on the same operations, and prints a table of instructions a record.
#
#   speed.sh SPEED [STREAM..]
#
# SPEED   the program speed that build.sh made
# STREAM  raw streams of at most 262,144 bytes, .tpi or .ipi; without any: the larger ones of samples/
#
# Wanted: the port's program measure, which `rt ci` makes, or `rt run` in its folder; and valgrind, on x86-64.
# Each operation is done 10 times and 20 times; the difference over 10 times the records is what one record costs, and what both runs do
# once (starting, reading the input, a finder for `find`, a places file for `load`) is not in it. `header` is counted by the header and not by the
# record, `primitives` by the 4,096 indices. The crate has no `load` and no `report`: load0, load and load6, at the shifts 0, 3 and
# 6, and report are the port's alone.
# valgrind's callgrind counts every instruction of the program, so that a run can be repeated and gives the same numbers.
# On another processor the port, which is compiled for x86-64, runs under the emulator qemu-x86_64, one instruction a line of its log, once and
# twice. The crate is then not counted: its own build is for that processor (SPEED may be `-`).
set -e
if [ $# -lt 1 ]; then
  echo "usage: speed.sh SPEED [STREAM..]" >&2
  exit 2
fi
speed=$1
shift
root=$(cd "$(dirname "$0")/.." && pwd)
measure=$root/crates/measure/out/measure
places=$(mktemp)
trap 'rm -f "$places"' EXIT
if [ $# -eq 0 ]; then
  set -- "$root/samples/gen400-x64.tpi" "$root/samples/rich-x64.tpi" "$root/samples/rich-x64.ipi"
fi

if [ "$(uname -m)" = x86_64 ]; then
  fewest=10
  count() { # program operation times stream
    valgrind --tool=callgrind --callgrind-out-file=/dev/null "$1" "$2" "$3" 0 "$places" < "$4" 2>&1 >/dev/null | sed -n 's/.*Collected : //p'
  }
else
  fewest=1
  speed=-
  libraries=$(dirname "$(rt doc)")/toolchain/lib
  count() { # program operation times stream
    qemu-x86_64 -one-insn-per-tb -d exec,nochain -D /dev/fd/3 \
      "$libraries/ld-linux-x86-64.so.2" --library-path "$libraries" "$1" "$2" "$3" 0 "$places" < "$4" 3>&1 >/dev/null | grep -c '^Trace'
  }
fi

word() { # stream offset: the u32 there
  od -An -t u4 -j "$2" -N 4 "$1" | tr -d ' '
}

echo "| stream | operation | port | crate | port / crate | checksums |"
echo "|---|---|---|---|---|---|"
for stream; do
  records=$(($(word "$stream" 12) - $(word "$stream" 8)))
  case $stream in
    *.ipi) operations="parseids" ;;
    *) operations="header walk index load0 load load6 find parse elements primitives report" ;;
  esac
  for op in $operations; do
    n=$fewest over=$((fewest * records))
    case $op in
      header) n=$((100 * fewest)) over=$n ;;
      primitives) over=$((4096 * fewest)) ;;
    esac
    case $op in
      load0) "$root/model/places.py" save "$stream" "$places" 0; op=load name=load0 ;;
      load6) "$root/model/places.py" save "$stream" "$places" 6; op=load name=load6 ;;
      load) "$root/model/places.py" save "$stream" "$places" 3; name=load ;;
      *) name=$op ;;
    esac
    port=$(($(count "$measure" $op $((2 * n)) "$stream") - $(count "$measure" $op $n "$stream")))
    case $op in load* | report) asked=- ;; *) asked=$speed ;; esac
    if [ "$asked" = - ]; then
      awk -v s="$(basename "$stream")" -v op=$name -v p=$port -v over=$over 'BEGIN { printf "| %s | %s | %.1f | | | |\n", s, op, p / over }'
      continue
    fi
    same=alike
    if [ "$("$measure" $op $n < "$stream")" != "$("$speed" $op $n < "$stream")" ]; then
      same=differ
    fi
    crate=$(($(count "$speed" $op $((2 * n)) "$stream") - $(count "$speed" $op $n "$stream")))
    awk -v s="$(basename "$stream")" -v op=$op -v p=$port -v c=$crate -v over=$over -v same=$same \
      'BEGIN { printf "| %s | %s | %.1f | %.1f | %.2f | %s |\n", s, op, p / over, c / over, p / c, same }'
  done
done
