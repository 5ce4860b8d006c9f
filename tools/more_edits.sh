#!/bin/sh
# more_edits.sh [--all | --read] [NAME..]: tries the wrong bodies in crates/NAME/more-edits, which the gate leaves out, a crate at a time, those below first.
# The prover has to refuse each. With no NAME, of every crate that has some; --all tries those of must-fail too.
#
# It works on a copy of crates/, crates.txt and HANDLES as they stand, and changes nothing here. There they lie in must-fail, and no others do, and `rt ci NAME`
# tries them: it takes what the gate has proved on this machine, proves the rest from nothing (hours, where the gate has not passed here), and keeps what was
# refused, so that it is not tried again while nothing changes. (`rt must-fail` takes nothing from the gate, and would prove all libraries once more.)
#
# First each edit of both folders is read: each old text has to stand once in its file. --read ends there, after some seconds.
# For each crate rt's line for each edit is told, and how many were refused. The status is 0 where all were, 1 where one was not refused, cannot be applied,
# compiled or read, or was not tried, and 2 where nothing could be done.
set -u
unset CI
folders=more-edits is_read_alone=no
case ${1-} in
    --all) folders='must-fail more-edits'; shift ;;
    --read) folders='must-fail more-edits' is_read_alone=yes; shift ;;
esac
cd "$(dirname "$0")/.." || exit 2
room=$(mktemp -d) || exit 2
running=
trap 'rm -rf "$room"' EXIT
trap '[ -z "$running" ] || { kill "$running"; wait "$running"; }; exit 130' HUP INT TERM

# The edits of crate $1 in the folders $2.
edits() {
    for folder in $2; do
        for edit in "crates/$1/$folder"/*.edit; do [ ! -f "$edit" ] || echo "$edit"; done
    done
}

# The crates of crates.txt, those below first, that have edits to be tried.
crates() {
    sed -n 's/^\([a-z0-9_]*\)[ a-z]*:.*/\1/p' crates.txt | while read -r name; do
        [ -z "$(edits "$name" "$folders")" ] || echo "$name"
    done
}

# Reads edit $2 of crate $1: each old text stands once in its file, as earlier pairs left it.
read_edit() {
    awk -v crate="crates/$1" -v edit="$2" '
        function read_all(file,  line, all) {
            while ((getline line < file) > 0) all = all line "\n"
            close(file)
            return all
        }
        function count(all, part,  at, found) {
            while (at = index(all, part)) { found++; all = substr(all, at + length(part)) }
            return found + 0
        }
        function tell(why) { print edit ": BAD EDIT: " why; is_bad = 1; exit }
        /^file: / { path = substr($0, 7); if (!(path in texts)) texts[path] = read_all(crate "/" path) }
        /^old: / { old = substr($0, 6) }
        /^new:/ {
            if (path == "" || old == "") tell("a new text stands before its file or its old text")
            found = count(texts[path], old)
            if (found != 1) tell("an old text stands in " path " " found " times")
            at = index(texts[path], old); new = substr($0, 5); sub(/^ /, "", new)
            texts[path] = substr(texts[path], 1, at - 1) new substr(texts[path], at + length(old))
            old = ""; pairs++
        }
        END { if (!is_bad && !pairs) { print edit ": BAD EDIT: it has no old and new text"; is_bad = 1 } exit is_bad }
    ' "$2"
}

# Tries the edits of crate $1, and tells what came of each.
try_edits() {
    tried=$room/crates/$1/must-fail of=0 refused=0
    mkdir "$tried" && cp $(edits "$1" "$folders") "$tried" || exit 2
    [ "$(edits "$1" "$folders" | wc -l)" -eq "$(ls "$tried" | wc -l)" ] || { echo "crates/$1: an edit of must-fail and one of more-edits have the same name" >&2; exit 2; }
    (cd "$room" && exec rt ci "$1") </dev/null >"$room/log" 2>&1 & running=$!
    wait "$running"; running=
    for edit in "$tried"/*.edit; do
        of=$((of + 1)) label="must-fail $1/$(basename "$edit"):"
        said=$(grep -F "rt: $label" "$room/log" | head -n 1)
        echo "${said:-rt: $label NOT TRIED}"
        case $said in *": refused, as it must be"*) refused=$((refused + 1)) ;; esac
    done
    only=$(grep -c "^rt: must-fail .*: refused, as it must be (only" "$room/log")
    echo "$1: $refused of $of refused, $only of them only by a limit of the prover or by a name that is gone"
    rm -rf "$tried"
    [ "$refused" = "$of" ] || { grep -E 'NOT PROVED|^rt: FAILED|error' "$room/log" | head -n 20; return 1; }
}

status=0
[ $# -gt 0 ] || set -- $(crates)
for name; do
    [ -n "$(edits "$name" "$folders")" ] || { echo "crates/$name has no such edits" >&2; exit 2; }
    for edit in $(edits "$name" 'must-fail more-edits'); do read_edit "$name" "$edit" || status=1; done
done
[ $is_read_alone = no ] || exit $status
tar -c --anchored --no-wildcards-match-slash --exclude='crates/*/out' --exclude='crates/*/must-fail' crates crates.txt HANDLES | tar -x -C "$room" || exit 2
for name; do try_edits "$name" || status=1; done
exit $status
