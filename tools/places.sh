#!/usr/bin/env bash
# Places of the points of docs/DESIGN-PASS.md in a folder with crates/ (this repository where none is given): a line each, and behind each
# point how many. It goes by text: what it finds is to be read.
set -euo pipefail
cd "${1:-$(dirname "${BASH_SOURCE[0]}")/..}"
code=(crates/*/src/*.rt)

found() {
    local lines
    lines=$(cat)
    [ -z "$lines" ] || printf '%s\n' "$lines"
    printf '== %s: %d\n\n' "$1" "$(grep -c . <<< "$lines" || true)"
}

{
    grep -nE '^    (None|Refused\(u8.*\)|Fault),' "${code[@]}" || true
    grep -nE '^    (pub )?(number|fault|answered|phase|track_kind|[a-z_]+_mark): (u8|bool),' "${code[@]}" || true
    grep -nE '^const NO_|\bfn (misfit|[a-z_]*number|[a-z_]*_mark)\(.*-> u8|\bfn .*\((number|mark|n): u8.*\) ->|shown: bool' "${code[@]}" || true
} | found '1 own Option or Result, flag beside a value, numbers for kinds or refusals'
{
    grep -hoE '^(pub )?fn [a-z0-9_]+' "${code[@]}" | sed 's/^pub //' | sort | uniq -c | awk '$1 > 1' || true
    grep -nB1 -A1 -E '^    (pub )?number: u8,' "${code[@]}" | grep -E 'struct' || true
} | found '2 names that stand more than once, and structs that are a number and a value'
grep -nE '^ *(while|loop) ' "${code[@]}" | found '3 loops other than for'
{ grep -nE '\bfn (print_|hex_|phase_|track_|number_of|answer_number|kind_number|goes_on|is_failed|wide|one|bit_of|word|number)[a-z_]*\(' "${code[@]}" || true; } | found '4 conversions and printing by functions of their own'
{
    grep -hE '^ +requires' "${code[@]}" | sed -E 's/^ +requires( [a-z_]+)? \{ //; s/ \}$//; s/ × /\n/g' | sed -E 's/^[( ]*//; s/[) ]*$//' |
        sort | uniq -c | awk '$1 > 2'
    grep -nE 'out: &mut \[u8\], (at|p): usize|control: Control, room' "${code[@]}" || true
} | found '5 facts in the contracts of three or more functions, and parameters that go together'
{ grep -nE '^    (pub )?(at|count|taken|width|length|end): (usize|u32),' "${code[@]}" || true; } | found '6 lengths and places kept beside'
{ grep -nE '=> [a-z_]+::[a-z_]+\(x' "${code[@]}" || true; } | found '7 a switch on which step to run'
grep -hE '^pub [^ ]+ : goal\.' crates/*/proofs/*/Answers.antt | found '8 answers of goals'
