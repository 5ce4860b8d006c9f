#!/usr/bin/env bash
# linear.sh PROGRAM.. : replays schedules of 4, 8 and 16 MB by each PROGRAM, and prints seconds of processor time, kilobytes of
# memory at the peak, lines of the report and the status.
set -u
here=$(cd "$(dirname "$0")" && pwd); work=$(mktemp -d); trap 'rm -rf "$work"' EXIT
for kind in nudge raw ask; do
  for size in 4 8 16; do
    "$here/long_schedule.py" $size $kind >"$work/schedule"
    for program in "$@"; do
      /usr/bin/time -o "$work/time" -f '%U + %S s, %e s of wall time, %M kB' $program replay <"$work/schedule" >"$work/report"; status=$?
      echo "$kind $size MB ($(wc -l <"$work/schedule") lines) $(basename "${program%% *}"): $(tail -1 "$work/time"), $(wc -l <"$work/report") lines written, status $status"
    done
  done
done
