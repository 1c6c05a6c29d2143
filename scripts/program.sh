#!/usr/bin/env bash
# What `pabble`, `prove` and the scripts of `bench` share: what the program is made of, and where a built one stands. Run by itself
# it prints the path of the program that `pabble` runs, and builds that without its proofs where there is none; or, where PABBLE
# names another program, the path of that. With PROGRAM_CRATE=draw all of this is said of the program `draw`, and with
# PROGRAM_CRATE=pabble_renew of the program `pabble-renew`, where DRAW and RENEW may name another one.
top=$(cd "$(dirname "$(readlink -f "${BASH_SOURCE[0]}")")/.." && pwd) || exit 70

# The program's crate.
crate=${PROGRAM_CRATE:-pb_cli}

say() { echo "pabble: $*" >&2; }

# The words that make the proved program.
prove_words() { if [ "$crate" = pb_cli ]; then echo "$top/prove"; else echo "$top/prove $crate"; fi; }

# The toolchain's folder.
kit() { dirname "$(dirname "$(readlink -f "$(command -v rt)")")"; }

# The folders of built programs: the first, which git ignores, and one of the user's, where the checkout can't be written.
folders=("$top/out" "${XDG_CACHE_HOME:-$HOME/.cache}/pabble")

# The first of them that can be written.
store() {
    local folder
    for folder in "${folders[@]}"; do
        if mkdir -p "$folder" 2>/dev/null && [ -w "$folder" ]; then
            echo "$folder"
            return 0
        fi
    done
    say "no program can be kept: neither in ${folders[0]} nor in ${folders[1]}"
    return 1
}

# Prints the path of the program of that name, if it is kept.
kept() {
    local folder
    for folder in "${folders[@]}"; do
        [ -x "$folder/$1" ] && echo "$folder/$1" && return 0
    done
    return 1
}

# The lines of crates.txt, in the repository $1, of the program's crate and of all that it stands on.
lines() {
    awk -v program="$crate" '{ sub(/#.*/, "") }
        split($0, sides, ":") == 2 { split(sides[1], words, " "); line[words[1]] = $0; below[words[1]] = sides[2] }
        END {
            found[count = 1] = program
            for (at = 1; at <= count; at++) {
                print line[found[at]]
                split(below[found[at]], names, " ")
                for (k in names) if (names[k] in line && !seen[names[k]]++) found[++count] = names[k]
            }
        }' "$1/crates.txt" | LC_ALL=C sort
}

names() { lines "$1" | sed 's/[ :].*//'; }

# A checksum of the toolchain, and of the lines and of these folders of those crates.
checksum() {
    local repository=$1 crates part folders=()
    shift
    mapfile -t crates < <(names "$repository")
    for part in "$@"; do folders+=("${crates[@]/%//$part}"); done
    {
        cat "$(kit)/KIT-ID"
        lines "$repository"
        cd "$repository/crates" && find "${folders[@]}" -type f -print0 | LC_ALL=C sort -z | xargs -0 sha256sum
    } 2>/dev/null | sha256sum | cut -c1-32
}

# The names of the programs that these sources make: a change of one gives another name.
proved_name() { echo "proved-$(checksum "$1" src specs proofs)"; }
unproved_name() { echo "unproved-$(checksum "$top" src)-$(sha256sum < "$top/scripts/unproved.sh" | cut -c1-8)"; }

# Puts the program $1 into the folder $2 under the name $3, whole at once, and removes what was put there more than a week ago
# under other names of the kind.
keep() {
    local new=$2/.new-$$-$3
    cp "$1" "$new" && chmod 755 "$new" && mv -f "$new" "$2/$3" || { rm -f "$new"; return 1; }
    find "$2" -maxdepth 1 -type f \( -name "${3%%-*}-*" -o -name '.new-*' \) ! -name "$3" -mtime +7 -delete
}

# Builds the unproved program $2 in the folder $1. Where two do so at once, the second waits and takes what the first built.
build() {
    room=$(mktemp -d) || return 1
    trap 'rm -rf "$room"' EXIT
    flock 9
    [ ! -x "$1/$2" ] || return 0
    "$top/scripts/unproved.sh" "$room/program" "$crate" 9>&- || return 1
    [ "$(unproved_name)" = "$2" ] || { say "a source changed meanwhile: run this again"; return 1; }
    keep "$room/program" "$1" "$2"
}

# Prints the path of the proved program of these sources, else of the unproved one, which it says.
program() {
    local folder name
    kept "$(proved_name "$top")" && return 0
    name=$(unproved_name)
    if kept "$name"; then
        say "this program isn't proved; $(prove_words) makes the proved one"
        return 0
    fi
    folder=$(store) || return 1
    say "this program isn't proved, and is built first, in about three minutes; $(prove_words) makes the proved one"
    (build "$folder" "$name") 9>"$folder/lock" && kept "$name" && return 0
    say "the program couldn't be built"
    return 1
}

if [ "${BASH_SOURCE[0]}" = "$0" ]; then
    case $crate in
    pb_cli) named=${PABBLE:-} ;;
    draw) named=${DRAW:-} ;;
    pabble_renew) named=${RENEW:-} ;;
    *) named= ;;
    esac
    if [ -n "$named" ]; then readlink -m "$named"; else program || exit 70; fi
fi
