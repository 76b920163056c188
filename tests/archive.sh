#!/usr/bin/env bash
# Checks of the build script of rust/gdl90, from any folder: when it has `rt` make the archive, and what it says. It runs in a checkout
# of four crates, with an `rt` that notes how and where it was called and writes an archive of one line.
set -euo pipefail
root=$(cd "$(dirname "${BASH_SOURCE[0]}")/.." && pwd)
tmp=$(mktemp -d)
trap 'rm -rf "$tmp"' EXIT
mkdir -p "$tmp"/bin "$tmp"/rust/gdl90/src "$tmp"/crates/{numbers,gdl90,gdl90_c,lister}/{src,proofs,must-fail}
cp "$root"/rust/gdl90/{Cargo.toml,build.rs,archive.rs} "$tmp/rust/gdl90"
touch "$tmp"/rust/gdl90/src/lib.rs "$tmp"/crates/{numbers,gdl90,gdl90_c,lister}/{src/lib.rt,proofs/Laws.antt}
printf '# NAME: what it is built on\nnumbers:\ngdl90: numbers\ngdl90_c staticlib: gdl90\nlister: numbers io\n' > "$tmp/crates.txt"
cat > "$tmp/bin/rt" << 'END'
#!/bin/sh
echo "$* in ${PWD##*/}" >> ../../calls
[ ! -e ../../broken ] || exit 1
mkdir -p out
printf '!<arch>\n' > out/libgdl90_c.a
END
chmod +x "$tmp/bin/rt"

# build CALLS STATUS WORD [ARGUMENT...]: how often rt is called, whether cargo succeeds, and a part of what it says where it does not
build() {
    local calls=$1 want=$2 word=$3 status=0
    : > "$tmp/calls"
    PATH=$tmp/bin:$PATH cargo build --offline --quiet --manifest-path "$tmp/rust/gdl90/Cargo.toml" "${@:4}" 2> "$tmp/err" || status=1
    [ "$status" = "$want" ] || wrong "status $status"
    [ "$(wc -l < "$tmp/calls")" = "$calls" ] || wrong "rt was called $(wc -l < "$tmp/calls") times"
    [ "$calls" = 0 ] || [ "$(cat "$tmp/calls")" = 'lib in gdl90_c' ] || wrong 'rt was called otherwise'
    [ -z "$word" ] || grep -qF -- "$word" "$tmp/err" || wrong "no word of '$word'"
    [ "$status" = 1 ] || cmp -s "$tmp"/crates/gdl90_c/out/libgdl90_c.a "$tmp"/target/staticlib/libgdl90.a || wrong 'another archive'
    echo "ok: $case"
}

wrong() {
    printf 'wrong: %s: %s\n' "$case" "$*" >&2
    cat "$tmp/err" >&2
    exit 1
}

unset GDL90_LIB_DIR
case='no archive'
build 1 0 ''
case='an archive that is newer than its sources'
build 0 0 ''
case='a newer source of a crate below'
touch "$tmp/crates/numbers/src/lib.rt"
build 1 0 ''
case='a file that went'
rm "$tmp/crates/numbers/proofs/Laws.antt"
build 1 0 ''
case='a newer source of the crate itself'
touch "$tmp/crates/gdl90_c/src/lib.rt"
build 1 0 ''
case='a newer list of crates'
touch "$tmp/crates.txt"
build 1 0 ''
case='a newer source of another crate, and a newer edit'
touch "$tmp/crates/lister/src/lib.rt" "$tmp/crates/numbers/must-fail/new.edit"
build 0 0 ''
case='a newer source, and rt fails'
touch "$tmp/crates/gdl90/src/lib.rt" "$tmp/broken"
build 1 1 '`rt lib` in crates/gdl90_c failed'
case='again, and rt does not fail'
rm "$tmp/broken"
build 1 0 ''
case='a folder that is given, and an older archive there'
mkdir "$tmp/given"
cp -p "$tmp/target/staticlib/libgdl90.a" "$tmp/given"
touch "$tmp/crates/gdl90/src/lib.rt"
GDL90_LIB_DIR=$tmp/given build 0 0 ''
case='a folder that is given, without an archive'
GDL90_LIB_DIR=$tmp/bin build 0 1 'libgdl90.a is not there'
case='another target'
build 0 1 'for x86-64 Linux only, not for aarch64-unknown-linux-gnu' --target aarch64-unknown-linux-gnu
