#!/usr/bin/env bash
# Holds citations against what they cite. A citation of a rule is RULES and its heading in quotes, or several; in docs/RULES.md itself the
# heading stands by itself. One of 001 is its section. A definition or an edit that docs/RULES.md names is a link to its file.
set -euo pipefail
cd "$(dirname "${BASH_SOURCE[0]}")/.."
rules=docs/RULES.md
failed=0

wrong() {
    printf 'wrong: %s\n' "$*" >&2
    failed=1
}

headings=$(sed -n 's/^## //p' "$rules")
[ -n "$headings" ] || wrong "$rules has no headings"
[ -z "$(sort <<< "$headings" | uniq -d)" ] || wrong "$rules has a heading twice"

# cited HEADING WHERE; and the headings in a citation
headings_in() { grep -oE "'[^']+'" | tr -d "'"; }
cited() { grep -qxF -- "$1" <<< "$headings" || wrong "$2 cites '$1', which is no heading of $rules"; }

files=(README.md crates docs examples gdl90-list include rust samples tests .ci)
# found EXPRESSION [FOLDER...]: where it stands, with the text
found() { grep -rnoIE --exclude-dir=target --exclude-dir=out --exclude=citations.sh "$1" "${@:2}"; }

# A citation goes neither over the end of a line nor on in another way.
citation="RULES '[^']+'((,| and) '[^']+')*"
goes_on="^(,|;| or|, and|, or)( '|\$)"
citations=$(found "$citation.{0,7}" "${files[@]}")
while IFS=: read -r file line text; do
    cites=$(grep -oE "^$citation" <<< "$text")
    ! [[ ${text#"$cites"} =~ $goes_on ]] || wrong "$file:$line: a citation that goes on"
    while read -r heading; do cited "$heading" "$file:$line"; done <<< "$(headings_in <<< "$cites")"
done <<< "$citations"
while IFS=: read -r line heading; do cited "${heading//\'/}" "$rules:$line"; done <<< "$(grep -noE "'[A-Z][A-Za-z -]*'" "$rules")"
found "RULES($|[,;:]| [^i' ])" "${files[@]}" && wrong 'a citation in another form'

# Both ways: a file of definitions that a heading links to cites that heading, or another that links to it.
linked=$(awk '/^## / { heading = substr($0, 4) }
    { while (match($0, /\(\.\.\/[^)]+\.antt\)/)) { print heading "|" substr($0, RSTART + 4, RLENGTH - 5); $0 = substr($0, RSTART + RLENGTH) } }' "$rules")
while read -r file; do
    grep -qxFf <(grep -oE "$citation" "$file" | headings_in | sed "s|\$|\|$file|") <<< "$linked" ||
        wrong "$file cites no heading of $rules that links to it"
done <<< "$(cut -d '|' -f 2 <<< "$linked" | sort -u)"

# How many sections 001 has below each: the others have none.
declare -A below=([1]=6 [2]=3 [2.2]=4 [3]=8 [3.1]=4 [3.2]=2 [3.3]=2 [3.5]=2 [3.5.1]=12 [4]=5 [4.1]=2 [4.2]=4 [4.3]=2 [4.4]=2
    [5]=2 [5.1]=4 [5.1.3]=2 [5.2]=4 [5.2.2]=2 [6]=2 [6.2]=3 [6.2.1]=2 [6.2.2]=2 [6.2.3]=3)
sections=$(found '§ ?[0-9]+(\.[0-9]+)*' "${files[@]}")
while IFS=: read -r file line section; do
    above=${section#§} last=${section##*[.§]}
    case $above in *.*) most=${below[${above%.*}]-0} ;; *) most=6 ;; esac
    [ "$last" -ge 1 ] && [ "$last" -le "$most" ] || wrong "$file:$line cites $section, which 001 does not have"
done <<< "$sections"

# The papers that the rules were written from are not here to be looked up: they are named in README.md alone, 01 once.
papers="\b0[12]('s\b| \([ivx]+\)| '[A-Z]| (says|has|asks|rules|gives|takes|leaves)\b)|\(0[12][),:;]|\b(of|by|and|or|as|in|from|see|per) 0[12]\b([^ ]| [^0-9A-F]|$)"
found "$papers" "${files[@]:1}" && wrong 'a paper is cited that is not here'
[ "$(grep -oE '\b01\b' README.md | wc -l)" = 1 ] || wrong 'README.md does not name 01 once'

links=$(grep -oE '\[`[^`]+`\]\(\.\./[^)]+\)' "$rules" | sort -u)
while IFS=' ' read -r name file; do
    case $file in
        *.antt) grep -qE "^(abbrev |unfoldable )?pub (record |data )?$name( |\$)" "$file" || wrong "$rules: $file has no $name" ;;
        *.edit) [ -f "$file" ] && [ "$name" = "$(basename "$file" .edit)" ] || wrong "$rules: there is no edit $name, $file" ;;
        *) wrong "$rules: $name is neither a definition nor an edit, $file" ;;
    esac
done <<< "$(sed -E 's/^\[`([^`]+)`\]\(\.\.\/([^)]+)\)$/\1 \2/' <<< "$links")"

[ "$failed" = 0 ] || exit 1
echo "ok: $(wc -l <<< "$citations") citations of $(wc -l <<< "$headings") headings, $(wc -l <<< "$sections") of sections of 001, $(wc -l <<< "$links") definitions and edits"
