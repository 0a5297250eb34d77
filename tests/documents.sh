#!/usr/bin/env bash
# The pages against the tree: files, functions and make targets that they name are there; each must-fail edit is named in
# docs/PROMISES.md, which says how many there are, and each edit that it names stands in the crate that it says; each rule that they and
# comments cite is in docs/SPEC.md, which alone names where the rules come from; each file of specs/ says which rules it states or which law
# makes it redundant, and docs/PROMISES.md lists the former and counts the latter; header, README and docs/FORMAT.md have the refusals of
# docs/SPEC.md, the header those of each call; CHANGELOG.md begins with the version; and crates.txt has direct dependencies only.
set -euo pipefail
cd "$(dirname "$0")/.."
bad=0
wrong() {
    echo "documents: $*" >&2
    bad=1
}
# docs/PORT.md and docs/DESIGN-PASS.md say what things were called
pages=(README.md CONTRIBUTING.md CHANGELOG.md BENCHMARKS.md $(ls docs/*.md | grep -vxE 'docs/(PORT|DESIGN-PASS)\.md') oracle/README.md oracle/data/README.md)

# `crate/src/x.rt`, `crate/specs/X.antt`, `crate/proofs/X.antt`, below crates/
named=$(grep -ohE '`(crates/)?[a-z_]+/(src|specs|proofs|must-fail)/[A-Za-z_/+]+\.(rt|antt|edit)`' "${pages[@]}" | tr -d '`' | sort -u)
for path in $named; do
    [ -f "crates/${path#crates/}" ] || wrong "$path is named and is not there"
done

# pages, headers, scripts, tests and data
for path in $(grep -ohP '(?<![/\w])(docs|include|tests|tool|demo|bench|bindings|oracle|package)/[\w./-]*\.(md|h|sh|rs|c|py|txt|toml)\b' "${pages[@]}" | sort -u); do
    [ -f "$path" ] || wrong "$path is named and is not there"
done

# `crate::module::function`
for path in $(grep -ohE '`[a-z_]+::[a-z_:]+`' "${pages[@]}" | tr -d '`' | sort -u); do
    crate=${path%%::*}
    name=${path##*::}
    [ -d "crates/$crate" ] || wrong "$path is named and there is no such crate"
    grep -rqE "(fn|mod|enum|struct|const) $name\b" "crates/$crate/src" || wrong "$path is named and is not there"
done

for target in $(grep -ohE '(`|^ {4})make [a-z-]+' "${pages[@]}" | awk '{print $NF}' | sort -u); do
    grep -qE "^$target:" Makefile oracle/oracle.mk || wrong "make $target is named and is no target"
done

# crates.txt names what a crate's own files name, and nothing that it reaches through that
while IFS=: read -r crate below; do
    crate=${crate%% *}
    for name in $below; do
        grep -rqE "\buse $name\b|\b$name::|Rattle\.$name\." --include='*.rt' --include='*.antt' --exclude-dir=out "crates/$crate" || wrong "crates.txt: $crate does not use $name"
    done
done < <(grep -E '^[a-z]' crates.txt)

# the edits of each call: `crate`: name, name; `crate`: name
listed=$(grep '^|' docs/PROMISES.md | grep -oE '`[a-z_]+`: [a-z_0-9]+(, [a-z_0-9]+)*' | sed 's/`//g')
while read -r crate names; do
    for name in ${names//,/}; do
        [ -f "crates/${crate%:}/must-fail/$name.edit" ] || wrong "edit $name is not in crate ${crate%:}"
    done
done <<< "$listed"
edits=0
for edit in crates/*/must-fail/*.edit; do
    name=$(basename "$edit" .edit)
    grep -qw "$name" docs/PROMISES.md || wrong "$edit is not in docs/PROMISES.md"
    edits=$((edits + 1))
done
grep -qF "There are $edits edits." docs/PROMISES.md || wrong "docs/PROMISES.md should say: There are $edits edits."

# A rule is **S1.2** at the begin of a line or of a table's row; any other S1.2 cites it.
rules=$(grep -oE '^(\| )?\*\*S[0-9]+\.[0-9]+\*\*' docs/SPEC.md | grep -oE 'S[0-9.]+[0-9]' | sort)
twice=$(uniq -d <<< "$rules")
[ -z "$twice" ] || wrong "docs/SPEC.md gives a number to two rules:" $twice
mapfile -t code < <(find crates -name out -prune -o \( -name '*.antt' -o -name '*.rt' \) -print)
for rule in $(grep -ohE '\bS[0-9]+\.[0-9]+\b' "${pages[@]}" "${code[@]}" | sort -u); do
    grep -qxF "$rule" <<< "$rules" || wrong "rule $rule is cited and not in docs/SPEC.md:" $(grep -lwF "$rule" "${pages[@]}" "${code[@]}")
done

# Where the rules come from is named once.
for origin in 'documents? 01' 'documents? 02' 'the mission'; do
    found=$(grep -oiE "$origin" "${pages[@]}" | cut -d: -f1 | tr '\n' ' ')
    [ "$found" = 'docs/SPEC.md ' ] || wrong "'$origin' should stand once, in docs/SPEC.md, and stands in: $found"
done
found=$(grep -liE 'documents? 0[12]' "${code[@]}" || true)
[ -z "$found" ] || wrong "comments should cite docs/SPEC.md:" $found

# The first line of a file of specs/: the rules that it states, which then must be believed, and so whatever it uses; or the law, or the
# contract of a function, that makes it redundant. What only the gate's programs use needs neither.
states='^-- docs/SPEC\.md, (S[0-9]+\.[0-9]+((, | to )S[0-9]+\.[0-9]+)*): .'
by_law='^-- Redundant by the laws? ([A-Za-z0-9_-]+)( and ([A-Za-z0-9_-]+))? in ([a-z_]+/proofs/[A-Za-z]+\.antt): .'
by_contract='^-- Redundant by the contract of `([a-z_]+)::([a-z_0-9]+::)*([a-z_0-9]+)`, ([a-z_]+/src/[a-z_0-9/]+\.rt): .'
unused="^-- Redundant: no promise of a call rests on it, only the gate's programs do\\. ."
believed=''
lines=0
redundant=0
redundant_lines=0
for spec in $(find crates -name out -prune -o -path '*/specs/*.antt' ! -name Lib.antt -print | sort); do
    path=${spec#crates/}
    line=$(head -n 1 "$spec")
    [ "${#line}" -le 150 ] || wrong "the first line of $path has over 150 characters"
    count=$(grep -cvE '^ *(--|use |$)' "$spec" || true)
    if [[ $line == '-- Redundant by '* ]]; then
        redundant=$((redundant + 1))
        redundant_lines=$((redundant_lines + count))
    fi
    if [[ $line =~ $states ]]; then
        lines=$((lines + count))
        believed+="| \`$path\` | ${BASH_REMATCH[1]} | $count |"$'\n'
        for used in $(sed -nE '/^use Rattle\.std\./d; s|^use Rattle\.([a-z_]+)\.specs\.([A-Z][A-Za-z0-9]*).*|\1/specs/\2.antt|p' "$spec"); do
            [[ $(head -n 1 "crates/$used") =~ $states ]] || wrong "$path states rules and uses $used, which does not"
        done
    elif [[ $line =~ $by_law ]]; then
        proofs=${BASH_REMATCH[4]}
        for law in "${BASH_REMATCH[1]}" "${BASH_REMATCH[3]}"; do
            [ -z "$law" ] || grep -qsE "^ *(pub )?$law :" "crates/$proofs" || wrong "$path names the law $law, which is not in $proofs"
        done
    elif [[ $line =~ $by_contract ]]; then
        grep -qsE "^ *(pub )?fn ${BASH_REMATCH[3]}\b" "crates/${BASH_REMATCH[4]}" || wrong "$path names ${BASH_REMATCH[3]}, which is not in ${BASH_REMATCH[4]}"
        [ "${BASH_REMATCH[4]%%/*}" = "${BASH_REMATCH[1]}" ] || wrong "$path names a function and a file of two crates"
    elif ! [[ $line =~ $unused && $path =~ ^(print|text|requests|responses)/ ]]; then
        wrong "the first line of $path names neither rules of docs/SPEC.md nor a law: $line"
    fi
done
listed=$(grep -E '^\| `[a-z_]+/specs/[A-Za-z0-9]+\.antt` \| S[^|]* \| [0-9]+ \|$' docs/PROMISES.md | sort)
differ=$(diff <(sort <<< "${believed%$'\n'}") <(echo "$listed") || true)
[ -z "$differ" ] || wrong "docs/PROMISES.md, What must be believed, should have < and has >:"$'\n'"$differ"
total="$(wc -l <<< "$listed") files, $((lines / 1000)),$(printf %03d $((lines % 1000))) lines"
for said in "$total" "$redundant files, $redundant_lines lines"; do
    grep -qF "$said" docs/PROMISES.md || wrong "docs/PROMISES.md, What must be believed, should say: $said"
done

# The refusals: | 1 | cause | whoever .. | or, several in a row, | 1 kind, 2 shape | whoever .. |
refusals() { grep -E '^\| [0-9].*\| whoever' "$1" | grep -oE '(^\| |, )[0-9]+ ' | grep -oE '[0-9]+' | sort -n | tr '\n' ' '; }
ruled=$(refusals docs/SPEC.md)
for page in README.md docs/FORMAT.md; do
    [ "$(refusals "$page")" = "$ruled" ] || wrong "$page has the refusals $(refusals "$page"), docs/SPEC.md $ruled"
done
header=$(sed -n '/^enum dpx_refusal/,/^}/p' include/durpaxeta.h | grep -oE 'DPX_[A-Z_]+ = [1-9][0-9]*' | awk '{print $3}' | sort -n | tr '\n' ' ')
[ "$header" = "$ruled" ] || wrong "include/durpaxeta.h has the refusals $header, docs/SPEC.md $ruled"

# Each call's list in rule S6.1 has the numbers that the header's comment on the call has.
calls=$(sed -n '/^\*\*S6.1\*\*/,/^\*\*S6.2\*\*/p' docs/SPEC.md | grep '^| `')
numbers() { grep -oE '[0-9]+' | sort -nu | tr '\n' ' '; }
while IFS='|' read -r _ call _ _ _ list _; do
    call=$(tr -d '` ' <<< "$call")
    list=$(sed 's/S[0-9.]*//g' <<< "$list" | numbers)
    header=$(awk -v call="dpx_$call(" '/^\/\*/ {comment = ""} {comment = comment "\n" $0} /^uint32_t/ && index($0, call) {print comment; exit}' include/durpaxeta.h \
        | grep -oE '^ \* +[0-9]+ DPX_' | numbers)
    [ "$header" = "$list" ] || wrong "$call has the refusals $header in include/durpaxeta.h, $list in rule S6.1"
done <<< "$calls"

version=$(cat VERSION)
newest=$(sed -n 's/^## \([0-9.]*\).*/\1/p' CHANGELOG.md | head -n 1)
[ "$newest" = "$version" ] || wrong "the newest heading of CHANGELOG.md is '$newest', the version '$version'"

[ "$bad" = 0 ] || exit 1
echo "$(wc -w <<< "$named") files, $edits edits, $(wc -w <<< "$rules") rules and $(wc -w <<< "$ruled") refusals, as the pages say; to be believed: $total"
