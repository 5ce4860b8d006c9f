#!/usr/bin/env bash
# refuse_node.sh PROGRAM CONFIG: refuses calls of host 1 among three hosts, then calls of the client program of a cluster.
# Right is: the client's answers are right; the statuses are 0 or 4 to 8 (9 where a budget ends, 18 where a child ended badly).
set -u
here=$(cd "$(dirname "$0")" && pwd); program=$1 config=$(realpath "$2"); work=$(mktemp -d); trap 'rm -rf "$work"' EXIT; cd "$work" || exit 2
for kind in allocation read write; do
  for number in 1 2 3 5 10 20 50 100 200; do
    node="env LD_PRELOAD=$here/refuse.so REFUSE=$kind REFUSE_AT=$number $program"
    echo "node, $kind $number: $("$here/by_hand.py" "$config" "$program" "$node" "$program" 2>&1 </dev/null | tail -1)"
  done
done
for kind in allocation read write; do
  for number in 1 2 3 4 5 6 8 10 12 15 20 30 50 80; do
    rm -f node-*.record
    LD_PRELOAD=$here/refuse.so REFUSE=$kind REFUSE_AT=$number REFUSE_WORD=cluster timeout -k 1 30 $program cluster 20 <"$config" >lines 2>errors; status=$?
    echo "cluster, $kind $number: status $status, $(wc -l <lines) result lines, $(wc -c <errors) bytes of errors"
  done
done
