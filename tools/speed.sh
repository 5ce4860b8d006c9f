#!/bin/sh
# Proves and runs the program that measures how fast messages are written and read, and what the tables do with them:
#     tools/speed.sh measure
#     tools/speed.sh tables < NEW_VIEW
# Its sources are tools/speed/*.rs, a Rattle crate: nothing stands on it and it shows no behaviour, so the gate has no part in it. It is proved over a copy
# of the crates below it, which takes over what `rt check` and `rt lib` proved of them on this machine, and not what the gate did; from nothing they take
# half an hour.
top=$(CDPATH='' cd -- "$(dirname -- "$(readlink -f -- "$0")")/.." && pwd) || exit 125
room=$(mktemp -d) || exit 125
trap 'rm -rf "$room"' EXIT
trap 'exit 130' INT TERM HUP

mkdir -p "$room/crates/mb_speed/src" "$room/.git" && cp "$top/HANDLES" "$room" || exit 125
for name in mb_base mb_usig mb_parts mb_gate mb_service mb_kv mb_msg mb_model mb_cert mb_plan mb_cache; do
    mkdir "$room/crates/$name" && grep "^$name:" "$top/crates.txt" >>"$room/crates.txt" || exit 125
    for part in src specs proofs; do
        [ ! -d "$top/crates/$name/$part" ] || cp -r "$top/crates/$name/$part" "$room/crates/$name" || exit 125
    done
done
echo 'mb_speed: mb_plan mb_cert mb_gate mb_cache mb_kv mb_service mb_model mb_msg mb_parts mb_usig mb_base sha2' >>"$room/crates.txt"
for file in "$top"/tools/speed/*.rs; do
    cp "$file" "$room/crates/mb_speed/src/$(basename "$file" .rs).rt" || exit 125
done
cd "$room/crates/mb_speed" && rt run -- "$@"
