# Sourced by the benches that measure the repository's crates by a small program of their own: it makes a repository of
# that program and the crates below it in a folder that goes, proves it and builds it. Of the bench's words it takes
#   --scratch FOLDER   keep what is built in FOLDER, and build no more than what differs from what is kept there
#   --prepare          build, and measure nothing
top=$(cd "$(dirname "${BASH_SOURCE[0]}")/.." && pwd)
new=$(mktemp -d)
trap 'rm -rf "$new"' EXIT
kept=$new
prepares=
words=()
while [ $# -gt 0 ]; do
    case $1 in
        --scratch)
            mkdir -p "$2"
            kept=$(realpath "$2")
            shift
            ;;
        --prepare) prepares=yes ;;
        *) words+=("$1") ;;
    esac
    shift
done
set -- "${words[@]}"

# scratch NAME CRATE..: begins the program NAME over these crates and those below them.
scratch() {
    name=$1
    shift
    code=$new/crates/$name
    mkdir -p "$code/src"
    git -C "$new" init -q
    cp "$top/HANDLES" "$new"
    echo "$name: $*" >"$new/crates.txt"
    take "$@"
}

take() {
    local crate part
    for crate; do
        # (a library of the toolchain has no folder here, and a crate may stand below several)
        if [ ! -d "$top/crates/$crate" ] || [ -d "$new/crates/$crate" ]; then continue; fi
        mkdir "$new/crates/$crate"
        for part in src specs proofs; do
            [ ! -d "$top/crates/$crate/$part" ] || cp -r "$top/crates/$crate/$part" "$new/crates/$crate"
        done
        grep "^$crate:" "$top/crates.txt" >>"$new/crates.txt"
        take $(sed -n "s/^$crate://p" "$top/crates.txt")
    done
}

# put FILE: a file of the program, from standard input.
put() {
    mkdir -p "$(dirname "$code/$1")"
    cat >"$code/$1"
}

# plain NAME FILE: builds a plain program in Rust, optimised, unless it is kept; `$plain` is its path.
plain() {
    plain=$kept/$1
    if [ ! -x "$plain" ] || ! cmp -s "$2" "$plain.rs"; then
        rustc --edition 2021 -O -o "$plain" "$2"
        cp "$2" "$plain.rs"
    fi
}

# built: proves, builds and runs the program, unless it is kept; `$program` is its path. With --prepare that is all.
built() {
    local sum
    program=$kept/$name
    sum=$(cd "$new" && (rt version; find crates* -type f -print0 | sort -z | xargs -0 sha256sum) | sha256sum)
    if [ ! -x "$program" ] || [ "$(cat "$program.sum")" != "$sum" ]; then
        (cd "$code" && rt run) >"$new/log" 2>&1 </dev/null || { cat "$new/log" && exit 1; }
        cp "$code/out/$name" "$program"
        echo "$sum" >"$program.sum"
    fi
    if [ -n "$prepares" ]; then exit 0; fi
}

# runs PROGRAM..: runs these in turns, three times or `$rounds`; prints their lines, with the least of each last word.
runs() {
    local round it
    for round in $(seq "${rounds:-3}"); do
        for it; do "$it"; done
    done | awk '
        { time = $NF; $NF = "" }
        !($0 in least) { line[++count] = $0; least[$0] = time }
        time < least[$0] { least[$0] = time }
        END { for (k = 1; k <= count; k++) print line[k] least[line[k]] }'
}
