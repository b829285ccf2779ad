# Proves and builds the programs. Sourced by ./celtisdarts, which sets `here` to the folder of the repository and `room` to that of
# temporary files.
# shellcheck shell=sh disable=SC2034,SC2154

so_far() {
    echo "minutes so far: $((($(date +%s) - began) / 60))"
}

# Reports the progress of the build once a minute, until the build removes the file `began`.
tell_each_minute() {
    seconds=0
    while sleep 1 && [ -f "$room/began" ]; do
        seconds=$((seconds + 1))
        [ "$((seconds % 60))" -eq 0 ] || continue
        checked=$(sed -n 's/^so far: \([0-9]* of [0-9]* functions checked\).*/, \1/p' "$room/said" | tail -n 1)
        say "$(cat "$room/step")$checked; $(so_far)"
    done
}

# Prints the free memory in MB: of the machine, or of its control group if that has less.
free_memory() {
    {
        awk '/^MemAvailable:/ { print int($2 / 1024) }' /proc/meminfo
        awk 'NR == FNR { limit = $1; next } $1 == "anon" && limit != "max" { print int((limit - $2) / 1048576) }' \
            /sys/fs/cgroup/memory.max /sys/fs/cgroup/memory.stat
    } 2> /dev/null | sort -n | head -n 1
}

# Sets `jobs`, the number of functions that a check proves in parallel: one per processor, at most 8, if there are 3 GB of memory for the
# first and 1.5 GB for each further one. (If the check is killed for memory, rt tries again with one.)
count_jobs() {
    jobs=$(nproc 2> /dev/null) || jobs=1
    free=$(free_memory)
    fit=$((${free:-0} / 1500 - 1))
    [ "$jobs" -le "$fit" ] || jobs=$fit
    [ "$jobs" -le 8 ] || jobs=8
    [ "$jobs" -ge 1 ] || jobs=1
}

# Proves and builds the crate: a library for the crates above it, or a program, which `rt run` then runs on an empty text.
prove_crate() {
    count_jobs
    case $crate in
        celtisdarts) set -- run --jobs "$jobs" -- 8 ;;
        *) set -- lib --jobs "$jobs" ;;
    esac
    (cd "$here/crates/$crate" && exec rt "$@") < /dev/null > "$room/said" 2>&1 &
    await
}

# build PROGRAM...: proves the crates below these programs, lowest first, builds the programs and notes their sources. Their time is set
# to when the build began, so a source that changes meanwhile is newer.
build() {
    began=$(date +%s)
    : > "$room/began"
    for name do
        of_program "$name"
        sources_sum > "$room/sources.$name" || {
            say "no program: the sources, crates.txt or the command 'sha256sum' are missing"
            exit 3
        }
    done
    tell_each_minute > /dev/null &
    crates=$(below name "$*")
    count=$(echo "$crates" | wc -l)
    at=0
    for crate in $crates; do
        at=$((at + 1))
        step="crate $at of $count: $crate"
        say "$step; $(so_far)"
        echo "$step" > "$room/step"
        if ! prove_crate; then
            tail -n 20 "$room/said" >&2
            say "no program: the crate $crate is not proved and built"
            exit 3
        fi
    done
    for name do
        of_program "$name"
        touch -r "$room/began" "$built" || exit 3
        if ! note_built "$(cat "$room/sources.$name")"; then
            say "no program of these sources: they changed while they were proved, or it could not be noted; call --build again"
            exit 3
        fi
    done
    rm "$room/began"
    say "proved and built: $*; $(so_far)"
}

# Builds the programs that are missing.
make_programs() {
    for name in $programs; do
        of_program "$name"
        if ! is_current; then
            set -- "$@" "$name"
        elif ! has_note && has_toolchain; then
            # (`is_current` is called again, since a source may have changed before the sum was taken.)
            before=$(sources_sum) && is_current && note_built "$before"
        fi
    done
    if [ "$#" -eq 0 ]; then
        say "the programs are proved and built already"
        exit 0
    fi
    need_toolchain "nothing can be built"
    make_room
    build "$@"
    exit 0
}
