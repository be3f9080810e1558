#!/bin/sh
# Runs the program with the words given, in the folder where it is called, and ends with its status.
# Where the program isn't built yet, or a source is newer than it, it is built first: every crate
# below it is proved on the way, which takes minutes the first time. Status 70 says that the
# program could not be built.
self=$0
while [ -L "$self" ]; do
    target=$(readlink -- "$self")
    case $target in
        /*) self=$target ;;
        *) self=$(dirname -- "$self")/$target ;;
    esac
done
top=$(CDPATH= cd -- "$(dirname -- "$self")" && pwd -P) || exit 70
crates=$top/crates
program=$crates/flux_main/out/flux_main

# The crates that the program stands on, each behind those that it stands on itself.
below() {
    awk '
        function visit(crate,   parts, count, i) {
            if (!(crate in lines) || seen[crate]++) return
            count = split(lines[crate], parts, " ")
            for (i = 1; i <= count; i++) visit(parts[i])
            if (crate != "flux_main") print crate
        }
        /^[a-z]/ { crate = $1; sub(/:$/, "", crate); sub(/^[^:]*:/, ""); lines[crate] = $0 }
        END { visit("flux_main") }
    ' "$top/crates.txt"
}

is_built() {
    [ -x "$program" ] || return 1
    for crate in $(below) flux_main; do
        newer=$(find "$top/crates.txt" "$crates/$crate/src" "$crates/$crate/specs" \
            "$crates/$crate/proofs" -newer "$program" -type f 2>/dev/null | head -n 1)
        [ -z "$newer" ] || return 1
    done
}

fail() {
    tail -n 20 "$1" >&2
    echo "flux: the program could not be built" >&2
    rm -f "$1"
    exit 70
}

build() {
    log=$(mktemp) || exit 70
    all=$(below)
    total=$(($(echo "$all" | wc -l) + 1))
    count=0
    for crate in $all; do
        count=$((count + 1))
        echo "flux: proving $crate ($count of $total)" >&2
        (cd "$crates/$crate" && rt lib) >"$log" 2>&1 || fail "$log"
    done
    echo "flux: building flux_main ($total of $total)" >&2
    rm -f "$program"
    # this runs it once without words, by which it only shows its usage
    (cd "$crates/flux_main" && rt run) >"$log" 2>&1
    [ -x "$program" ] || fail "$log"
    touch "$program"
    rm -f "$log"
}

is_built || build
exec "$program" "$@"
