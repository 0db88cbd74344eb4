# shellcheck shell=bash
# A scratch crate over crates of this repository, in a folder that goes when the script ends. The scripts beside this file read it.
set -euo pipefail

top=$(cd "$(dirname "$(readlink -f "${BASH_SOURCE[0]}")")/.." && pwd)
room=$(mktemp -d)
trap 'rm -rf "$room"' EXIT

# Copies crates of the repository, and those that they stand on.
take() {
    local name part line
    for name in "$@"; do
        if [ -d "$room/crates/$name" ] || [ ! -d "$top/crates/$name" ]; then
            continue
        fi
        mkdir -p "$room/crates/$name"
        for part in src specs proofs; do
            if [ -d "$top/crates/$name/$part" ]; then
                cp -r "$top/crates/$name/$part" "$room/crates/$name/"
            fi
        done
        # What rt has kept of it in this repository: rt sees whether that is of these sources.
        if [ -e "$top/crates/$name/out/rlib/stamp" ]; then
            mkdir "$room/crates/$name/out"
            cp -a "$top/crates/$name/out/rlib" "$room/crates/$name/out/"
        fi
        line=$(grep -E "^$name( [^:]*)?:" "$top/crates.txt")
        echo "$line" >>"$room/crates.txt"
        # shellcheck disable=SC2086 # the names behind the colon
        take ${line#*:}
    done
}

# Begins the scratch crate of this name, which uses these crates.
begin() {
    scratch=$room/crates/$1
    mkdir -p "$scratch"
    take "${@:2}"
    echo "$1: ${*:2}" >>"$room/crates.txt"
}

# Makes standard input a file of the scratch crate.
put() {
    mkdir -p "$(dirname "$scratch/$1")"
    cat >"$scratch/$1"
}

# Proves the scratch crate and what it stands on, builds it, runs it with these words, and writes what it prints.
run() {
    echo "proving and building; the first time may take a quarter of an hour" >&2
    if ! (cd "$scratch" && rt run ${1:+-- "$@"} 2>"$room/log" </dev/null); then
        tail -n 20 "$room/log" >&2
        return 1
    fi
}
