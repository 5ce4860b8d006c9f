# For ./minbft and ./try: which crates the program is made of, and whether a file is as new as they are. $top is the folder of the repository.

# The repository's crates that the program stands on, and the program itself, those below first, as crates.txt lists them.
crates() {
    awk -F: '
        /^[a-z]/ { name[++count] = $1; uses[$1] = $2 }
        END {
            wanted["minbft"] = 1
            for (i = count; i > 0; i--) {
                if (!wanted[name[i]]) continue
                n = split(uses[name[i]], below, " ")
                for (j = 1; j <= n; j++) wanted[below[j]] = 1
            }
            for (i = 1; i <= count; i++) if (wanted[name[i]]) print name[i]
        }' "$top/crates.txt"
}

# The folders of its sources, definitions and proofs.
folders() {
    for name in $(crates); do
        for kind in src specs proofs; do
            [ -d "$name/$kind" ] && echo "$name/$kind"
        done
    done
}

# All of that, and crates.txt, is older than this file; the time of a folder tells what was taken away.
is_older() {
    [ -z "$(cd "$top/crates" && { folders; echo ../crates.txt; } | xargs sh -c 'find "$@" -newer "$0" -print' "$1" | head -n 1)" ]
}
