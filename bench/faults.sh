#!/usr/bin/env bash
# Runs the built program on files with a fault of syntax or past a limit, and prints each that isn't answered as it must
# be: every prefix of the first example that lacks its last `}`, each keyword as a name, and all limits of a protocol at
# their number and one past it.
top=$(cd "$(dirname "$0")/.." && pwd) || exit 1
work=$(mktemp -d) || exit 1
trap 'rm -rf "$work"' EXIT
program=$("$top/scripts/program.sh") || exit 1
wrong=0
count=0

# asks STATUS LINE: `gen` on the bytes of standard input ends with this status and line. A line that ends with `*` is
# the front of one.
asks() {
    cat >"$work/p"
    local said status
    said=$("$program" gen "$work/p")
    status=$?
    count=$((count + 1))
    # shellcheck disable=SC2053
    if [ "$status" != "$1" ] || [[ "$said" != $2 ]]; then
        wrong=$((wrong + 1))
        echo "status $status, $said; and not $1, $2: $(head -c 200 "$work/p")"
    fi
}

# fits: `check` on the bytes of standard input finds no fault of syntax and no limit
fits() {
    cat >"$work/p"
    local said
    said=$("$program" check "$work/p")
    count=$((count + 1))
    case $said in
    "pabble: syntax "* | "pabble: limit "*)
        wrong=$((wrong + 1))
        echo "$said; and not within the limits: $(head -c 200 "$work/p")"
        ;;
    esac
}

head="const N = 2..max;global protocol P(role W){"

# again PIECE COUNT
again() { for ((k = 0; k < $2; k++)); do printf '%b' "$1"; done; }

# repeats BEFORE PIECE BEHIND CLOSING MOST LINE: the piece may stand as often as MOST
repeats() {
    for extra in 0 1; do
        { printf '%b' "$1"; again "$2" $(($5 + extra)); printf '%b' "$3"; again "$4" $(($5 + extra)); } >"$work/q"
        if [ "$extra" = 0 ]; then fits <"$work/q"; else asks 5 "pabble: limit $6" <"$work/q"; fi
    done
}

# numbers BEFORE MOST PAST BEHIND LINE
numbers() {
    fits < <(printf '%s' "$1$2$4")
    asks 5 "pabble: limit $5" < <(printf '%s' "$1$3$4")
}

first='const N = 2..max;
global protocol P(role W[0..N-1]) {
  A() from W[0] to W[N-1];
'
prefixes() {
    for ((len = 0; len <= ${#first}; len++)); do
        asks 1 "pabble: syntax at *" < <(printf '%s' "${first:0:len}")
    done
}

keywords() {
    for key in const global protocol role from to foreach rec continue choice at or compute barrier broadcast reduce \
        allreduce with max min sum int32 uint32 do; do
        asks 1 "pabble: syntax at 1:35" < <(printf '%s' "const N = 2..max; global protocol $key(role W){}")
        asks 1 "pabble: syntax at 1:54" < <(printf '%s' "$head A() from $key to W; }")
    done
}

prefixes
keywords
numbers "const N = 2.." 2000000000 2000000001 ";global protocol P(role W){}" "number at 1:14"
numbers "const N = 2.." 2000000000 99999999999999999999999 ";global protocol P(role W){}" "number at 1:14"
numbers "const N = " 0100000 100001 "..max;global protocol P(role W){}" "constant at 1:11"
numbers "const N = 2..max;global protocol P(role W[0..N-" 100000 100001 "]){}" "constant at 1:48"
numbers "${head}A() from W[" 100000 100001 "] to W;}" "constant at 1:55"
numbers "${head}A(int32[" 1024 1025 "]) from W to W;}" "payload at 1:52"
repeats "const " A "=2..max;global protocol P(role W){}" "" 64 "name at 1:7"
repeats "$head" "\n rec X{" "}" "}" 63 "nesting at 65:7"
repeats "$head" "\nbarrier;" "}" "" 4000 "statements at 4002:1"
repeats "const N = 2..max;global protocol P(role W" ",\n role V" "){}" "" 63 "roles at 65:2"
repeats "${head}choice K at W{}" "\nor{}" "}" "" 63 "branches at 65:1"
echo "$count files, $wrong answered wrongly"
[ "$wrong" = 0 ]
