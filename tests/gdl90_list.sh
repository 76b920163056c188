#!/usr/bin/env bash
# Checks of gdl90-list, from any folder; stops at the first that is wrong. The lister has to be built: rt run, in crates/lister.
# They need socat, tshark with text2pcap, and xxd.
set -euo pipefail
root=$(cd "$(dirname "${BASH_SOURCE[0]}")/.." && pwd)
list=$root/gdl90-list
sample=$root/samples/recording.gdl90
listing=$root/samples/recording.txt
lister=$root/crates/lister/out/lister
[ -x "$lister" ] || { echo "$lister is not built: run rt run in crates/lister" >&2; exit 1; }
"$list" /dev/null > /dev/null 2>&1 # builds it anew where a source is newer
tmp=$(mktemp -d)
trap 'if [ -e "$tmp/socat" ]; then kill "$(cat "$tmp/socat")" || true; fi; rm -rf "$tmp"' EXIT
out=$tmp/out err=$tmp/err

# run COMMAND...: its output, its word and its status are kept for check.
run() {
    status=0
    "$@" > "$out" 2> "$err" || status=$?
}

wrong() {
    printf 'wrong: %s\n' "$*" >&2
    cat "$err" >&2
    exit 1
}

# check NAME STATUS OUTPUT WORD: OUTPUT is a file, WORD a part of standard error, which is empty where WORD is.
check() {
    [ "$status" -eq "$2" ] || wrong "$1: status $status, not $2"
    cmp "$out" "$3" || wrong "$1: another output"
    if [ -z "$4" ]; then
        [ ! -s "$err" ] || wrong "$1: a word on standard error"
    else
        grep -qF -- "$4" "$err" || wrong "$1: no word of '$4'"
    fi
    echo "ok: $1"
}

# listing_of FILE LINE...: the listing that has these lines behind its first.
listing_of() { printf '%s\n' 'n at ans id len pos' "${@:2}" > "$1"; }

# await COMMAND...: waits until it succeeds, 10 seconds at most.
await() {
    for _ in {1..200}; do
        ! "$@" || return 0
        sleep 0.05
    done
    wrong "waited in vain: $*"
}

has_lines() { [ "$(wc -l < "$1")" -ge "$2" ]; }
has_bytes() { [ "$(wc -c < "$1")" -ge "$2" ]; }

listings() {
    run "$list" "$sample"
    check 'a file' 0 "$listing" ''
    run "$list" < "$sample"
    check 'standard input' 0 "$listing" ''
    run "$list" - < "$sample"
    check 'standard input as -' 0 "$listing" ''
    cd "$tmp"
    cp "$sample" './a b'
    ln -s "$list" link
    run ./link 'a b'
    check 'from another folder, through a link, a name with a space' 0 "$listing" ''
    cd /
    printf '\x55\x7E\x00\x81\x41\xDB\xD0\x08\x02\xB3\x8B\x7E\x7E\x00\x81\x41\xDB\xD0\x08\x02\xB3\x8A\x7E\x07\x7D' > "$tmp/example"
    listing_of "$tmp/example.txt" '1 2 0 0 7 -' '2 13 5 - - 9' 'end 1 2'
    run "$list" "$tmp/example"
    check 'the example of docs/RULES.md' 0 "$tmp/example.txt" ''
    for at in $(awk '$1 ~ /^[0-9]+$/ { print $2 }' "$listing"); do
        [ "$(xxd -s $((at - 1)) -l 1 -p "$sample")" = 7e ] || wrong "no flag before byte $at"
    done
    echo 'ok: xxd -s AT is behind a flag'
    for at in $(awk '$3 ~ /^[245]$/ && NF == 6 { print $2 + $6 }' "$listing"); do
        [ "$(xxd -s "$at" -l 1 -p "$sample")" = 7e ] || wrong "no flag at byte $at"
    done
    echo 'ok: with 2, 4 and 5 xxd -s AT -l POS ends before the closing flag'
}

arguments() {
    local words
    run "$list" --help
    for words in '  n  ' '  at  ' '  ans  ' '  id  ' '  len  ' '  pos  ' 'xxd -s AT -l POS' "Often a message of the maker's own, and no fault"; do
        grep -qF -- "$words" "$out" || wrong "help: no word of '$words'"
    done
    ! grep -qE '.{81}' "$out" || wrong 'help: a line over 80 characters'
    [ "$status" -eq 0 ] && [ ! -s "$err" ] || wrong 'help'
    echo 'ok: help'
    run "$list" "$sample" "$sample"
    check 'two arguments' 2 /dev/null 'one FILE at most'
    grep -qF 'usage: gdl90-list [FILE' "$err" || wrong 'two arguments: no usage'
    run "$list" -x
    check 'an option that there is not' 2 /dev/null 'there is no option -x'
    cd "$tmp"
    cp "$sample" ./-x
    run "$list" -- -x
    check 'a name that begins with -' 0 "$listing" ''
    run "$list" ''
    check 'an empty name' 1 /dev/null "'' is not there"
    run "$list" "$tmp/none"
    check 'a file that is not there' 1 /dev/null "'$tmp/none' is not there"
    run "$list" "$tmp"
    check 'a folder' 1 /dev/null "'$tmp' is a folder"
    if [ "$(id -u)" -ne 0 ]; then
        touch "$tmp/shut" && chmod 0 "$tmp/shut"
        run "$list" "$tmp/shut"
        check 'a file that may not be read' 1 /dev/null 'no permission'
    fi
}

# What the program cannot read or write: a word, and a status that is not 0.
failures() {
    listing_of "$tmp/nothing.txt" 'end 0 0'
    run "$list" < "$tmp"
    check 'standard input is a folder' 1 "$tmp/nothing.txt" 'cannot read standard input'
    run bash -c '"$1" "$2" >&-' - "$list" "$sample"
    check 'output closed from the start' 1 /dev/null 'standard output is closed'
    run bash -c '"$1" "$2" > /dev/full' - "$list" "$sample"
    check 'output full' 1 /dev/null 'cannot write to standard output'
}

# A reader that has enough is no fault. The listing is more than a pipe holds.
closed_pipe() {
    local as_cat
    for _ in {1..500}; do cat "$sample"; done > "$tmp/long"
    listing_of "$tmp/header.txt"
    run bash -c 'cat "$1" | head -c 1; exit "${PIPESTATUS[0]}"' - "$tmp/long"
    as_cat=$status
    [ "$as_cat" -ne 0 ] || wrong 'cat has written all'
    run bash -c '"$1" "$2" | head -n 1; exit "${PIPESTATUS[0]}"' - "$list" "$tmp/long"
    check "a closed pipe, no word, cat's status" "$as_cat" "$tmp/header.txt" ''
    run bash -c 'trap "" PIPE; "$1" "$2" | head -n 1; exit "${PIPESTATUS[0]}"' - "$list" "$tmp/long"
    check 'a closed pipe where its signal is ignored' 1 "$tmp/header.txt" 'cannot write to standard output'
}

# noted NAME LISTING NOTE: status 0, and on standard error nothing but notes.
noted() {
    ! grep -qv '^note: ' "$err" || wrong "$1: a line that is no note"
    check "$1" 0 "$2" "note: $3"
}

# advised WORDS NAME FILE: runs the command that stands in a note from WORDS on, with FILE for NAME.
advised() {
    local command
    command=$(grep -o -- "$1.*" "$err")
    (cd "$tmp" && bash -c "${command//$2/$3}" 2> /dev/null) || wrong "'$command' fails"
}

no_recordings() {
    run "$list" /dev/null
    noted 'no byte' "$tmp/nothing.txt" 'the input is empty'
    xxd -p "$sample" > "$tmp/hex"
    listing_of "$tmp/hex.txt" "end $(wc -c < "$tmp/hex") 0"
    run "$list" "$tmp/hex"
    noted 'no flag' "$tmp/hex.txt" 'the input has no flag'
    advised 'xxd -r -p TEXT' TEXT "$tmp/hex"
    cmp "$tmp/recording.gdl90" "$sample" || wrong 'the hexadecimal digits become other bytes'
}

# Each format of a capture, with datagrams of 200 bytes and one of 1,400.
captures() {
    local pid
    { split -b 200 --filter='od -Ax -tx1 -v' "$sample"; head -c 1400 "$sample" | od -Ax -tx1 -v; } > "$tmp/datagrams"
    for format in pcap nsecpcap pcapng; do
        text2pcap -q -F "$format" -u 4000,4000 "$tmp/datagrams" "$tmp/capture" 2> /dev/null
        "$lister" < "$tmp/capture" > "$tmp/capture.txt" 2> /dev/null
        run "$list" "$tmp/capture"
        noted "a capture, $format" "$tmp/capture.txt" 'the input begins as a packet capture'
        advised tshark CAPTURE "$tmp/capture"
        cat "$sample" <(head -c 1400 "$sample") | cmp - "$tmp/recording.gdl90" || wrong "$format: other bytes come out"
    done
    run bash -c '"$1" "$2" > /dev/full' - "$list" "$tmp/capture"
    check 'a capture, and output full' 1 /dev/null 'cannot write to standard output'

    mkfifo "$tmp/open"
    "$list" "$tmp/open" > "$out" 2> "$err" &
    pid=$!
    exec 9> "$tmp/open"
    head -c 4 "$tmp/capture" >&9
    await has_lines "$err" 3 # before the input ends
    exec 9>&-
    status=0
    wait "$pid" || status=$?
    listing_of "$tmp/four.txt" 'end 4 0'
    noted 'a capture is noted at once' "$tmp/four.txt" 'the input begins as a packet capture'
}

# The first 1,036 bytes of the sample have 31 answers, which are to be seen before the rest is sent.
as_it_arrives() {
    local pid
    mkfifo "$tmp/fifo"
    "$list" "$tmp/fifo" > "$out" 2> "$err" &
    pid=$!
    exec 9> "$tmp/fifo"
    head -c 1036 "$sample" >&9
    await has_lines "$out" 32
    head -n 32 "$listing" > "$tmp/half.txt"
    status=0
    check 'lines appear as input arrives' 0 "$tmp/half.txt" ''
    tail -c +1037 "$sample" >&9
    exec 9>&-
    wait "$pid" || status=$?
    check 'the rest of the lines' 0 "$listing" ''
}

is_bound() { grep -qi ": [0-9A-F]*:$(printf '%04X' "$1") " /proc/net/udp; }

# receive ENDING [ADDRESS]: runs README's command of socat that ends so, on a free port and with a file of ours; socat leaves its number.
receive() {
    local command
    for port in {40000..49999}; do is_bound "$port" || break; done
    command=$(grep -- "^    socat .*$1\$" "$root/README.md") || wrong "README.md has no such socat: $1"
    command=${command/UDP4-RECV:4000/${2-UDP4-RECV:4000}}
    command=$(sed "s/4000/$port/; s|flight.gdl90|$tmp/flight.gdl90|; s|./gdl90-list|$list|" <<< "$command")
    # shellcheck disable=SC2016
    bash -c 'socat() { bash -c '\''echo $$ > "$0"; exec socat "$@"'\'' "$0" "$@"; }; eval "$1"' "$tmp/socat" "$command" > "$out" 2> "$err" &
    receiver=$!
    await is_bound "$port"
}

stop_receiving() {
    kill "$(cat "$tmp/socat")"
    rm "$tmp/socat"
    status=0
    wait "$receiver" || status=$?
}

# send FILE LENGTH [FROM]: to loopback, in datagrams of so many bytes.
send() { socat -u -b "$2" - "UDP4-SENDTO:127.0.0.1:$port,bind=${3-127.0.0.1}" < "$1"; }

# Several frames in a datagram and frames that go over its end, and then a long one.
receiving() {
    local port receiver one
    for _ in {1..10}; do cat "$sample"; done > "$tmp/ten"
    cat "$sample" "$tmp/ten" > "$tmp/sent"
    "$list" "$tmp/sent" > "$tmp/sent.txt"

    receive '- | ./gdl90-list'
    send "$sample" 300
    await has_lines "$out" 68 # all but the last line
    send "$tmp/ten" 65536
    await has_lines "$out" $(($(wc -l < "$tmp/sent.txt") - 1))
    stop_receiving
    check 'a receiver is watched' 0 "$tmp/sent.txt" ''

    one=$(grep -o 'UDP4-RECV:4000,range=[0-9./]*' "$root/README.md")
    receive '- | ./gdl90-list' "${one/=*\//=127.0.0.2/}"
    send "$sample" 300 127.0.0.3
    send "$sample" 300 127.0.0.2
    await has_lines "$out" 68
    stop_receiving
    check 'one sender of two' 0 "$listing" ''

    receive '> flight.gdl90'
    send "$sample" 300
    send "$tmp/ten" 65536
    await has_bytes "$tmp/flight.gdl90" "$(wc -c < "$tmp/sent")"
    stop_receiving
    cmp "$tmp/flight.gdl90" "$tmp/sent" || wrong 'another recording'
    echo 'ok: a receiver is recorded'

    receive 'tee flight.gdl90 | ./gdl90-list'
    send "$sample" 300
    await has_lines "$out" 68
    stop_receiving
    cmp "$tmp/flight.gdl90" "$sample" || wrong 'another recording'
    check 'a receiver is recorded and watched' 0 "$listing" ''
}

# A copy of the script in a tree of its own, whose only rt is the one that is put there.
copy() {
    "${environment[@]}" "$tmp/copy/gdl90-list" "$sample"
}

# An rt that proves a library, and then leaves a lister there or ends with this status.
put_rt() {
    cat > "$tools/rt" << END
#!/bin/sh
echo "called: rt \$* in \${PWD##*/}"
echo 'fn one: proved'
[ "\$1" = run ] || exit 0
[ "$1" = 0 ] || { echo 'what is wrong' >&2; exit "$1"; }
mkdir -p out
cp "$lister" out/
END
    chmod +x "$tools/rt"
}

# built NAME STATUS OUTPUT WORD: as check, with a line of progress for each crate that is proved; what rt says stands in the log alone.
built() {
    local line steps=('1 of 2 crates proved, last numbers' '2 of 2 crates proved, last lister')
    [ "$2" -eq 0 ] || steps=("${steps[0]}")
    for line in "${steps[@]}"; do
        grep -qF -- "gdl90-list: building the lister: $line" "$err" || wrong "$1: no line '$line'"
    done
    ! grep -qv '^gdl90-list: ' "$err" || wrong "$1: another line"
    for line in 'called: rt lib in numbers' 'called: rt run in lister' 'fn one: proved'; do
        grep -qxF -- "$line" "$tmp/copy/target/gdl90-list.log" || wrong "$1: '$line' is not in the log"
    done
    check "$@"
}

# With rt itself: it proves nothing anew here, and says so crate by crate.
rebuilding() {
    touch -d 2000-01-01 "$lister"
    run "$list" "$sample"
    tail -n 1 "$err" | grep -qx 'gdl90-list: building the lister: \([0-9]*\) of \1 crates proved, last lister' || wrong 'another last step'
    check 'a lister older than its source is built by rt' 0 "$listing" 'building the lister'
}

building() {
    local tools=$tmp/tools source=$tmp/copy/crates/lister/src/main.rt log=$tmp/copy/target/gdl90-list.log
    environment=(env "PATH=$tools")
    mkdir -p "$tmp/copy/crates/numbers" "$tmp/copy/crates/lister/src" "$tools"
    for tool in sh dirname readlink find touch cp mkdir awk; do ln -s "$(command -v "$tool")" "$tools/$tool"; done
    cp "$list" "$tmp/copy/"
    touch "$source"
    printf '# NAME: what it is built on\nnumbers:\nother: numbers\nlister: numbers io\n' > "$tmp/copy/crates.txt"
    run copy
    check 'neither rt nor a built lister' 1 /dev/null 'install the Rattle toolchain'

    put_rt 1
    run copy
    built 'a build that fails names the log' 1 /dev/null "could not be built: $log says why"
    grep -qx 'what is wrong' "$log" || wrong 'what is wrong is not in the log'
    put_rt 0
    rm "$log" && mkdir "$log"
    run copy
    check 'a log that cannot be written' 1 /dev/null 'the lister is not built, and'
    rmdir "$log"
    run copy
    built 'first use builds' 0 "$listing" 'building the lister'
    run copy
    check 'second use does not' 0 "$listing" ''
    touch -d '+1 minute' "$source"
    run copy
    built 'a newer source is built' 0 "$listing" 'building the lister'
    touch -d '+2 minutes' "$source"
    on_a_terminal
    put_rt 1
    touch -d '+3 minutes' "$source"
    run copy
    built 'a newer source that is not proved' 1 /dev/null 'could not be built'
    without_building
}

on_a_terminal() {
    local command
    printf -v command '%q ' "${environment[@]}" "$tmp/copy/gdl90-list" "$sample"
    run script -qec "$command > $(printf '%q' "$tmp/listed")" /dev/null
    [ "$status" -eq 0 ] && cmp "$tmp/listed" "$listing" || wrong 'on a terminal'
    [ "$(grep -c . "$out")" = 1 ] && [ "$(tr '\r' '\n' < "$out" | grep -c 'building the lister')" = 3 ] || wrong 'not one line of progress'
    ! tr '\r' '\n' < "$out" | grep -qE '.{85}' || wrong 'progress over 80 characters, and 4 that control the terminal'
    echo 'ok: on a terminal progress is one line, written over'
}

without_building() {
    rm "$tmp/tools/rt"
    run copy
    check 'no rt, an older lister' 0 "$listing" 'older than its source'
    rm -r "$tmp/copy/crates/lister/src" "$tmp/copy/crates.txt"
    run copy
    check 'a built lister is enough' 0 "$listing" ''
    printf '#!/bin/sh\nkill -9 $$\n' > "$tmp/copy/crates/lister/out/lister"
    run copy
    check 'a lister that is killed' 1 /dev/null 'ended with status'
}

listings
arguments
failures
closed_pipe
no_recordings
captures
as_it_arrives
receiving
rebuilding
building
