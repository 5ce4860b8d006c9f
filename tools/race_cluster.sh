#!/bin/sh
# race_cluster.sh PROGRAM OTHER [ROUNDS [F [K]]]: clusters of two programs that have the words of minbft, in turn, ROUNDS (5) times each: of 2,000 and of 20,000
# operations of one client. Absolute paths; OTHER may have first words, as "/path/other --v2". Run it where nothing else runs, with no cluster of port 40000 beside it.
# With F above 1 the larger ones have 10,000 operations: a node makes 100,000 receives, and there each operation is six to eight of them.
#
# Of each program and size the least time counts. What the further operations take gives microseconds for each; what is left of 2,000 operations is
# the start and the end. The status is 0 where each run ended with status 0 and all gave the same results, else 1.
set -u
[ $# -ge 2 ] || { sed -n '2,7s/^# \{0,1\}//p' "$0"; exit 2; }
ours=$1 other=$2 rounds=${3-5} faults=${4-1} interval=${5-16}
here=$(CDPATH='' cd -- "$(dirname -- "$0")" && pwd) || exit 2
[ "$faults" = 1 ] && many=20000 || many=10000
room=$(mktemp -d) || exit 2
trap 'rm -rf "$room"' EXIT
trap 'exit 130' HUP INT TERM
state=0

# One run of the program $1 with $2 operations. Its seconds are one line more of the file $3.
run() {
    folder=$(mktemp -d "$room/run.XXXXXX")
    begun=$(date +%s.%N)
    # The words of $1 are parted on purpose.
    (cd "$folder" && exec $1 cluster 2000 <"$room/config.$2" >"$folder/lines") || { echo "$1: $2 operations ended badly"; state=1; }
    ended=$(date +%s.%N)
    echo "$begun $ended" | awk '{ printf "%.6f\n", $2 - $1 }' >>"$3"
    [ -f "$room/lines.$2" ] || cp "$folder/lines" "$room/lines.$2"
    cmp -s "$folder/lines" "$room/lines.$2" || { echo "$1: other results of $2 operations"; state=1; }
    rm -rf "$folder"
}

for count in 2000 $many; do
    python3 "$here/make_config.py" "$count" 40000 "$interval" | sed "s/^f 1$/f $faults/" >"$room/config.$count" || exit 2
done
for round in $(seq "$rounds"); do
    for count in 2000 $many; do
        run "$ours" "$count" "$room/ours.$count"
        run "$other" "$count" "$room/other.$count"
    done
done
least() { sort -n "$room/$1" | head -n 1; }
echo "$(least ours.2000) $(least ours.$many) $(least other.2000) $(least other.$many)" | awk -v f="$faults" -v k="$interval" -v size="$many" '
    function told(name, few, many) {
        each = (many - few) / (size - 2000)
        printf "%-8s 2,000 operations %.3f s, all %.3f s: %.1f microseconds each, start and end %.3f s\n", name, few, many, each * 1000000, few - 2000 * each
        return each
    }
    {
        printf "f = %d, K = %d, %d operations, least of the rounds\n", f, k, size
        ours = told("PROGRAM", $1, $2); other = told("OTHER", $3, $4)
        printf "requests a second: %.2f of those of OTHER\n", other / ours
    }'
exit "$state"
