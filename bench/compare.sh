#!/bin/sh
# Compares two archives of the library on the families whose names have one of
# the words:
#
#     bench/compare.sh BEFORE.a AFTER.a WORD...
#
# The benchmark is built with each, in target/compare/before and
# target/compare/after, and `bench compare` is run. In both builds each function
# of the archive begins a page: where the linker puts it otherwise made
# differences of up to 8 % between two builds with the same archive; one whose
# name has a = cannot be named to objcopy, and stays where it is. An archive
# from before there were fifteen departures, or decisions, is given today's names
# by before.c.
set -eu
before=$(realpath "$1")
after=$(realpath "$2")
shift 2
cd "$(dirname "$0")"
folder=$PWD/target/compare

build() {
    mkdir -p "$folder/$1"
    archive=$folder/$1/libembed.a
    cp "$2" "$archive"
    names=$(nm "$archive")
    seven=
    case $names in *' T tramcheck_verdict_unpacked_15'*) ;; *) seven=-DSEVEN ;; esac
    case $names in
    *' T tramcheck_decide_15'*) ;;
    *)
        cc -O2 -ffunction-sections $seven -c before.c -o "$folder/$1/before.o"
        ar r "$archive" "$folder/$1/before.o"
        ;;
    esac
    functions=$(objdump -h "$archive" | awk '$2 ~ /^\.text\../ && $2 !~ /=/ { print $2 }')
    objcopy $(printf -- '--set-section-alignment %s=4096 ' $functions) "$archive"
    EMBED_DIR=$folder/$1 cargo build --quiet --release --offline --target-dir "$folder/$1"
}

build before "$before"
build after "$after"
exec "$folder/after/release/bench" compare "$folder/before/release/bench" "$@"
