# Answers a call by a program that is compiled for it alone. Sourced by ./celtisdarts.
# shellcheck shell=sh disable=SC2154

# Reports every half minute that the program is still compiling, until the file `compiling` is removed.
tell_compiling() {
    seconds=0
    while sleep 1 && [ -f "$room/compiling" ]; do
        seconds=$((seconds + 1))
        [ "$((seconds % 30))" -ne 0 ] || say "still compiling, after $seconds s"
    done
}

# run_compiled WORD...: compiles the program, and runs it with these words and standard input. It runs in another folder, with copies of
# the files below this one that are named. (`rt try` also runs an interpreter first, which takes no arguments: one step of it is enough.)
run_compiled() {
    left=$#
    for word do
        word=${word#--with=}
        case $word in
            /* | *..* | *=*) ;;
            *) [ ! -f "$word" ] || set -- "$@" --data "$word=$PWD/$word" ;;
        esac
    done
    set -- "$@" --
    while [ "$left" -gt 0 ]; do
        set -- "$@" "$1"
        shift
        left=$((left - 1))
    done
    (cd "$here/crates/$of" && exec rt try --steps 1 --seconds 300 "$@") <&3 > "$room/answer" 2> "$room/said" &
    await
}

# try_unproved WORD...: answers this call without the proofs, and exits. There may be no answer, since `rt try` limits the length of an
# answer, the time of the run, and the time between two parts of standard input.
try_unproved() {
    say "compiling for this one call, which takes minutes; ./celtisdarts --build makes the proved program once"
    make_room
    : > "$room/compiling"
    [ ! -t 2 ] || tell_compiling > /dev/null &
    if (: 3<&0) 2> /dev/null; then exec 3<&0; else exec 3< "$room"; fi
    run_compiled "$@"
    rm "$room/compiling"
    status=$(sed -n 's/^run=ended status=\([0-9]*\) .*/\1/p' "$room/said")
    if [ -z "$status" ] || grep -q '^rt: standard input did not end' "$room/said"; then
        say "no answer without the proofs, within the limits of 'rt try': ./celtisdarts --build makes the proved program"
        exit 3
    fi
    cat "$room/answer" 2> /dev/null || end_output
    grep -v '^interpreter: \|^checked: \|^run=\|^rt: ' "$room/said" >&2
    exit "$status"
}
