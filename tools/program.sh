# From which sources a program was built. Sourced by ./celtisdarts, ./test, tools/release and tools/library. They set `here` to the
# folder of the repository.
#
# There is one program, celtisdarts. The functions act on it, unless `of_program NAME` selected the library for C, an archive that
# tools/library makes. Its notes have the same form.
#
# Next to a proved program, NAME.proved has three lines: `program` with the sum of its bytes, `sources` with the sum of what it was
# built from, and `toolchain` with what `rt version` printed then. Sums are those of sha256sum.
# shellcheck shell=sh disable=SC2034,SC2154
programs=celtisdarts
library=celtisdarts_c

# of_program NAME: selects the current program
of_program() {
    of=$1
    artifact=$of
    [ "$of" != "$library" ] || artifact=libceltisdarts.a
    built="$here/crates/$of/out/$artifact"
    released="$here/release/$artifact"
}

# Whether the file exists, and is executable if it is a program.
is_there() {
    if [ "$of" = "$library" ]; then [ -f "$1" ]; else [ -x "$1" ]; fi
}

of_program celtisdarts

# below PART [PROGRAM...]: the program's crate and all below it, in the order of crates.txt, lowest first. PART is `line` for their
# lines there, or `name`. With several programs, the crates of all of them, each once.
below() {
    awk -F: -v part="$1" -v roots="${2:-$of}" '
        { sub(/#.*/, ""); gsub(/[ \t]+/, " "); sub(/ $/, "") }
        NF > 1 { split($1, head, " "); names[++lines] = head[1]; whole[lines] = $0; uses[head[1]] = $2 }
        END {
            count = split(roots, todo, " ")
            for (i = 1; i <= count; i++) {
                if (!(todo[i] in uses) || todo[i] in below) continue
                below[todo[i]]
                n = split(uses[todo[i]], deps, " ")
                for (k = 1; k <= n; k++) todo[++count] = deps[k]
            }
            for (i = 1; i <= lines; i++) if (names[i] in below) print part == "line" ? whole[i] : names[i]
        }' "$here/crates.txt"
}

sum_of() {
    sum=$(sha256sum < "$1") && echo "${sum%% *}"
}

# The sum of what a program is built from: those lines of crates.txt, and each source file with its name.
sources_sum() {
    set --
    for crate in $(below name); do
        set -- "$@" "crates/$crate/src"
    done
    [ "$#" -gt 0 ] && sums=$(cd "$here" && find "$@" -name '*.rt' -exec sha256sum {} +) || return 1
    sum=$({ below line && echo "$sums" | LC_ALL=C sort; } | sha256sum) && echo "${sum%% *}"
}

# Reads the notes next to a program. Succeeds if they are about these bytes.
is_noted() {
    noted_program=
    noted_sources=
    noted_toolchain=
    [ -f "$1.proved" ] || return 1
    while read -r word value; do
        case $word in
            program) noted_program=$value ;;
            sources) noted_sources=$value ;;
            toolchain) noted_toolchain=$value ;;
        esac
    done < "$1.proved"
    sum=$(sum_of "$1") && [ "$sum" = "$noted_program" ]
}

# Whether the program whose notes were read was built from today's sources.
is_of_these_sources() {
    sum=$(sources_sum) && [ "$sum" = "$noted_sources" ]
}

# Whether the program that was built here has notes, and is not newer than they are.
has_note() {
    is_noted "$built" && [ -z "$(find "$built" -newer "$built.proved")" ]
}

# Whether the program was built here, from today's sources. If it has no notes, as after `rt run` and `rt ci`, times decide: no source
# is newer.
is_current() {
    is_there "$built" || return 1
    if has_note; then
        is_of_these_sources
        return
    fi
    set --
    for crate in $(below name); do
        set -- "$@" "$here/crates/$crate/src"
    done
    [ "$#" -gt 0 ] && newer=$(find "$@" -name '*.rt' -newer "$built") && [ -z "$newer" ]
}

# note_built SUM: notes that the program was built from the sources of this sum, which was taken before. Fails if their sum is another
# now, since it is unknown then from which of them it was built.
note_built() {
    rm -f "$built.proved"
    [ -n "$1" ] && program_sum=$(sum_of "$built") && version=$(rt version) && [ "$(sources_sum)" = "$1" ] || return 1
    printf '%s\n' "program $program_sum" "sources $1" "toolchain $version" > "$built.proved.$$" &&
        mv "$built.proved.$$" "$built.proved"
}
