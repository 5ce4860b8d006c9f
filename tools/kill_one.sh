#!/usr/bin/env bash
# kill_one.sh PROGRAM CONFIG HOST SECONDS: runs `PROGRAM cluster 100000` and ends the node HOST by signal 9 so many seconds
# behind its start. Prints the status, how many result lines came, and the size of each record.
set -u
program=$1 config=$(realpath "$2") host=$3 seconds=$4
work=$(mktemp -d); trap 'rm -rf "$work"' EXIT; cd "$work" || exit 2
$program cluster 100000 <"$config" >lines & cluster=$!
sleep "$seconds"
node=$(for p in $(cat /proc/$cluster/task/$cluster/children); do
  tr '\0' ' ' <"/proc/$p/cmdline" | grep -q "node $host " && echo "$p"; done)
before=$(wc -l <lines)
[ -n "$node" ] && kill -9 "$node"
wait "$cluster"; status=$?
echo "node $host (process $node) ended behind $before lines; status $status, $(wc -l <lines) result lines"
for h in 0 1 2; do printf 'record %s: ' $h; $program retrace <node-$h.record; echo " (status $?)"; done
