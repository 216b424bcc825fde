# Sourced by the scripts that compare the library and the program with second/, and second/ with expat, after host/kit.sh.
second=target/second/release/second

# quietly COMMAND [WORD...]: what it says goes to standard error, and only where it fails
quietly() {
    local said
    said=$(mktemp)
    "$@" </dev/null >"$said" 2>&1 || { cat "$said" >&2; rm "$said"; return 1; }
    rm "$said"
}

# ready: builds second/, the library, the program that replays cases, and natively the one that shows texts to expat
ready() {
    mkdir -p target/host
    host/need cargo cc make expat.h
    (cd second && cargo build --release --offline --quiet)
    quietly make lib
    build target/host/replay host/replay.c
    cc -std=c11 -O2 -Wall -Wextra -Werror -o target/host/expat host/expat.c -lexpat
}

# same NAME: target/host/NAME.cases, replayed and as second/ has it; says how many in `compared`
same() {
    "$second" expect "target/host/$1.cases" >"target/host/$1.expected" || return 1
    run target/host/replay <"target/host/$1.cases" >"target/host/$1.replayed" ||
        { echo "$1: the replay ended with status $?" >&2; return 1; }
    if ! cmp "target/host/$1.expected" "target/host/$1.replayed" >&2; then
        echo "$1: the proved code and the second program differ" >&2
        diff "target/host/$1.expected" "target/host/$1.replayed" | head -5 >&2 || true
        return 1
    fi
    compared=$(wc -l <"target/host/$1.expected")
    rm "target/host/$1.cases"
}

# same_seen NAME: the texts of target/host/NAME.cases that XML judges as the profile does, as expat sees them and as second/ has them; says how many in `compared`
same_seen() {
    "$second" plain "target/host/$1.cases" >"target/host/$1.plain" || return 1
    "$second" seen "target/host/$1.plain" >"target/host/$1.seen" || return 1
    target/host/expat <"target/host/$1.plain" >"target/host/$1.expat" ||
        { echo "$1: the program over expat ended with status $?" >&2; return 1; }
    if ! cmp "target/host/$1.seen" "target/host/$1.expat" >&2; then
        echo "$1: expat and the second program differ" >&2
        diff "target/host/$1.seen" "target/host/$1.expat" | head -5 >&2 || true
        return 1
    fi
    compared=$(grep -c -e whole -e broken "target/host/$1.seen" || true)
    rm "target/host/$1.plain" "target/host/$1.seen" "target/host/$1.expat"
}

# same_tables FOLDER: each NAME.csv of the folder through the program, against NAME.out beside it, and says how many in `compared`
same_tables() {
    local input wrong=0
    compared=0
    for input in "$1"/*.csv; do
        [ -e "$input" ] || continue
        run target/bin/table <"$input" >target/host/table.out || { echo "$input: the program ended with status $?" >&2; wrong=1; }
        cmp target/host/table.out "${input%.csv}.out" >&2 || { echo "$input: not the output that is expected" >&2; wrong=1; }
        compared=$((compared + 1))
    done
    return "$wrong"
}
