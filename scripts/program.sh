# The common part of the scripts around a proved program, which set root, the folder of the tree, and name, the
# program's, and read this file.

program=$root/target/bin/$name

# Ends with the status $1 and the rest as a message.
fail() {
    local status=$1
    shift
    printf '%s: %s\n' "$name" "$*" >&2
    exit "$status"
}

# Tells whether descriptor 0 is open. If it is not, a pipe or a file that is opened takes its place.
has_input() {
    { : 3<&0; } 2>/dev/null
}

# Tells whether the program was proved and built after the last change of a source. What rt makes is in folders out/ of the
# crates, and changes their own times.
is_current() {
    [[ -x $program && -f $checked && ! $root/crates.txt -nt $checked ]] &&
        [[ -z $(find "$root/crates" -mindepth 2 -name out -prune -o -newer "$checked" -print -quit) ]]
}

# Proves and builds the program if it is not current. The stamp is as old as the beginning of the proof, so that a
# source which changes meanwhile is proved next time. Scripts that are called at once prove one after the other, so that
# the second finds what the first built. Without flock they are not held apart.
prepare() {
    local checked=$root/target/$name.checked log stamp turn
    if is_current; then
        return
    fi
    command -v rt >/dev/null || fail 2 "the program is not built yet, and the Rattle kit's command rt is not found"
    echo "$name: proving and building the program, which may take some minutes .." >&2
    mkdir -p "$root/target" && { exec {turn}>"$root/target/proving"; } 2>/dev/null || fail 2 "$root/target cannot be written"
    if command -v flock >/dev/null; then
        flock "$turn"
    fi
    if ! is_current; then
        stamp=$(mktemp "$checked.XXXXXX") || fail 2 "$root/target cannot be written"
        if ! log=$("$root/scripts/build" "$name" 2>&1 </dev/null {turn}>&-); then
            rm -f -- "$stamp"
            printf '%s\n' "$log" >&2
            fail 2 "the program could not be proved and built"
        fi
        mv -f -- "$stamp" "$checked" || fail 2 "$root/target cannot be written"
    fi
    exec {turn}>&-
}
