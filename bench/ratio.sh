#!/usr/bin/env bash
# Prints how the time of the built program grows when its input doubles.
top=$(cd "$(dirname "${BASH_SOURCE[0]}")/.." && pwd) || exit 1
program=$top/crates/bookfmt/out/bookfmt
work=$(mktemp -d) || exit 1
trap 'rm -rf "$work"' EXIT
python3 - "$work" <<'P'
import sys
work = sys.argv[1]
prose = '<p>' + 'The printing house stood at the corner where the mill road leaves the river. ' * 9 + '</p>\n'
for name, size in (('letters-1', 3000000), ('letters-2', 6000000)):
    open(f'{work}/{name}', 'w').write('<p>' + 'a' * size + '</p>')
for name, size in (('prose-1', 6000000), ('prose-2', 12000000)):
    open(f'{work}/{name}', 'w').write(prose * (size // len(prose)))
P
: >"$work/sheet"
for kind in letters prose; do
  times=()
  for size in 1 2; do
    begun=$(date +%s%N)
    "$program" format "$top/examples/plain/metrics.txt" "$work/$kind-$size" "$work/sheet" >/dev/null 2>&1 || exit 1
    times+=($((($(date +%s%N) - begun) / 1000000)))
  done
  echo "$kind: ${times[0]} ms, ${times[1]} ms, ratio $(python3 -c "print(round(${times[1]} / max(1, ${times[0]}), 2))")"
done
