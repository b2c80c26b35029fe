# shellcheck shell=sh disable=SC2034,SC2154
# What the scripts of this folder share; they read it from the folder at the top of the repository. Nothing here is proved.

proved=$top/crates/commute/out/commute
# The program whose proofs weren't checked on this machine: with the kit's run-time checks, or without them (`README.md`).
case ${COMMUTE_UNCHECKED:-} in
'') quick=$top/crates/commute/out/quick ;;
*) quick=$top/crates/commute/out/quick-unchecked ;;
esac

say() {
    echo "commute: $*" >&2
}

# Whether a program is missing, or older than crates.txt or a file of a crate whose name ends in one of the given endings.
stale() {
    program=$1
    [ -x "$program" ] || return 0
    shift
    set -- "$@" -name crates.txt
    [ -n "$(find "$top/crates.txt" "$top/crates" -name out -prune -o -type f \( "$@" \) -newer "$program" -print)" ]
}

# Of the proved program the proofs count too.
stale_proved() {
    stale "$proved" -name '*.rt' -o -name '*.antt' -o
}

stale_quick() {
    stale "$quick" -name '*.rt' -o
}

# Waits until this shell alone builds what it is about to: the lock is on 9, and ends with its shell.
in_turn() {
    ! command -v flock >/dev/null || flock -n 9 || { say "another shell is building $1: waiting for it" && flock 9; }
}

# The kit's folder, by its command.
found_kit() {
    rt=$(command -v rt) || {
        say "$1 has to be built, and rt is not on the path: install the kit of Rattle (rattle-kit-13b or later) and add its bin to the path"
        return 1
    }
    kit=$(dirname "$(dirname "$(readlink -f "$rt")")")
}
