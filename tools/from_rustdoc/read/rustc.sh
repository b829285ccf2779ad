#!/bin/sh
# What cargo calls in rustc's place: what cargo builds goes to unit.py, which documents libraries too; all else, as what a build script asks, is
# left alone. FROM_RUSTDOC_WRAPPER is what the user has in this place, FROM_RUSTDOC_PYTHON is Python.
[ -z "$FROM_RUSTDOC_WRAPPER" ] || set -- "$FROM_RUSTDOC_WRAPPER" "$@"
for word do
    case $word in
        extra-filename=*) exec "$FROM_RUSTDOC_PYTHON" -S -B "${0%/*}/unit.py" "$@" ;;
    esac
done
exec "$@"
