# Sourced by the scripts that compile C for the library and run it. The library and today's kit are for x86-64 alone.
if [ "$(uname -m)" != x86_64 ]; then
    echo "$0: the kit of Rattle, which builds and runs the library, is for x86-64, and this machine is $(uname -m)" >&2
    exit 1
fi
kit=$(dirname "$(rt doc)")
tools=$kit/toolchain
link=$kit/bin/rattle-link

# build PROGRAM FILE.c...: with the kit's clang, over the library of `make lib`; each function at the begin of a line of the cache, as in the library
build() {
    local program=$1 objects=() file object
    shift
    mkdir -p "$(dirname "$program")"
    for file in "$@"; do
        object=$(dirname "$program")/$(basename "$file" .c).o
        "$tools/bin/clang" --target=x86_64-unknown-linux-gnu -std=c11 -O3 -falign-functions=64 -Wall -Wextra -Werror -fPIC -nostdinc -isystem host/x86-64 -Iinclude -c "$file" -o "$object"
        objects+=("$object")
    done
    "$link" --target x86_64-unknown-linux-gnu --toolchain "$tools" -o "$program" "${objects[@]}" target/lib/libsonquilate.a 2>"$program.linked" ||
        { cat "$program.linked" >&2; return 1; }
}

# run PROGRAM [WORD...]: with the kit's loader and C library
run() {
    "$tools/lib/ld-linux-x86-64.so.2" --library-path "$tools/lib" "$@"
}
