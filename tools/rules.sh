#!/bin/sh
# Checks docs/RULES.md: that each page, definition, function, clause, edit and test that it names exists, and that each must-fail edit
# stands in a row. It prints what is missing, and then ends with status 1.
#
#   sh tools/rules.sh
#
# The columns are: rule, page, definitions, code, promises, edits, tests. In them stand, between backticks:
#   definitions   CRATE/MODULE:NAME, of crates/CRATE/specs/MODULE.antt, or CRATE/PATH.rt:NAME, of a trait's ghost member
#   code          CRATE/PATH.rt:NAME, of crates/CRATE/src/PATH.rt
#   promises      CRATE/PATH.rt:NAME, a function with a clause, CRATE/PATH.rt:NAME:LABEL, a clause of it by its name, or a definition
#   edits         CRATE/LABEL, of crates/CRATE/must-fail/LABEL.edit or of tools/plants.txt
#   tests         CRATE/PATH.rt:NAME, a test, or a path from the top, of a stored output or of a program that makes one
cd "$(dirname "$0")/.." || exit 2
page=docs/RULES.md
rows=$(mktemp) || exit 2
lost=$(mktemp) || exit 2
trap 'rm -f "$rows" "$lost"' EXIT

# A line for each thing named: the number of its row's line, its column and the thing.
awk -F'|' '/^\| / && !/^\| *(rule|---)/ {
    for (column = 3; column <= 8; column++) {
        cell = $column
        while (match(cell, /`[^`]+`/)) {
            print NR, column, substr(cell, RSTART + 1, RLENGTH - 2)
            cell = substr(cell, RSTART + RLENGTH)
        }
        if (column == 3) {
            cell = $column
            while (match(cell, /\([A-Z-]+\.md\)/)) {
                print NR, column, substr(cell, RSTART + 1, RLENGTH - 2)
                cell = substr(cell, RSTART + RLENGTH)
            }
        }
    }
}' "$page" > "$rows"

missing() {
    echo "$page:$1: there is no $2" | tee -a "$lost" >&2
}

in_specs() {
    grep -Eq "^ *(abbrev |unfoldable )?(pub )?(record |data )?$2( |$)" "crates/${1%%/*}/specs/${1#*/}.antt" 2> /dev/null
}

in_code() {
    grep -Eq "(fn|struct|enum|trait|const|type|ghost) $2([^a-zA-Z0-9_]|$)" "crates/${1%%/*}/src/${1#*/}" 2> /dev/null
}

has_label() {
    sed -n "/fn $2[^a-zA-Z0-9_]/,/^ *[{;]*$/p" "crates/${1%%/*}/src/${1#*/}" 2> /dev/null | grep -Eq "ensures\*? $3 "
}

is_edit() {
    test -e "crates/$1/must-fail/$2.edit" || grep -Fx -A 1 "label: $2" tools/plants.txt | grep -Fqx "crate: $1"
}

while read -r line column thing; do
    file=${thing%%:*}
    name=${thing#*:}
    case $column in
        3) test -e "docs/$thing" || missing "$line" "page $thing" ;;
        4 | 5 | 6)
            case $thing in
                *.rt:*:*) has_label "$file" "${name%%:*}" "${name#*:}" || missing "$line" "clause $thing" ;;
                *.rt:*) in_code "$file" "$name" || missing "$line" "function $thing" ;;
                *:*.*) in_specs "$file" "${name%%.*}" && in_specs "$file" "${name#*.}" || missing "$line" "definition $thing" ;;
                *) in_specs "$file" "$name" || missing "$line" "definition $thing" ;;
            esac ;;
        7) is_edit "${thing%%/*}" "${thing#*/}" || missing "$line" "edit $thing" ;;
        8)
            case $thing in
                *.rt:*) in_code "$file" "$name" || missing "$line" "test $thing" ;;
                *) test -e "$thing" || missing "$line" "file $thing" ;;
            esac ;;
    esac
done < "$rows"

for edit in crates/*/must-fail/*.edit; do
    crate=${edit#crates/}
    label=${edit##*/}
    thing=${crate%%/*}/${label%.edit}
    grep -q " 7 $thing\$" "$rows" || echo "$page: no row names the edit $thing" | tee -a "$lost" >&2
done
count=$(grep -c '^| [^-r]' "$page")
test -s "$lost" && exit 1
echo "$page: $count rules, all that they name is there"
