#!/usr/bin/env bash
# The CPU affinity table: written, shown, cut, merged, read by a guest and checked. Prints each command and its output. Needs
# the command durpaxeta in build/ (make demo builds it). Ends with a status other than 0 if anything comes out differently.
set -euo pipefail
root=$(cd "$(dirname "$0")/.." && pwd)
export PATH="$root/build:$PATH"
folder=$(mktemp -d)
trap 'rm -rf "$folder"' EXIT
cp "$root/demo/guests.txt" "$folder"
cd "$folder"

say() { printf '\n# %s\n' "$*"; }
run() { printf '$ %s\n' "$1"; eval "$1"; }

say "Which cores may a guest run on? Two hosts of two guests. 'null' and 'value \"\"' are two things."
run 'cat guests.txt'

say 'Store it, and look at the bytes.'
run 'durpaxeta write guests.txt guests.bin'
run 'od -A d -t x1 guests.bin'

say 'A stored table does not say its kind and shape, so we do.'
run 'table=(--kind "depth 2, ragged, width 4, index at start" --shape 2x2)'
run 'durpaxeta show "${table[@]}" guests.bin'
run 'durpaxeta check "${table[@]}" guests.bin'

say 'What show prints can be written again, to the same bytes.'
run 'durpaxeta show "${table[@]}" guests.bin | durpaxeta write - again.bin'
run 'cmp guests.bin again.bin'

say 'Cut it: one file for each host.'
run 'durpaxeta cut "${table[@]}" --subset 0..1,0..2 guests.bin host0.bin'
run 'durpaxeta cut "${table[@]}" --subset 1..2,0..2 guests.bin host1.bin'
run 'durpaxeta show --kind "depth 2, ragged, width 4, index at start" --shape 1x2 host1.bin'

say 'Merge the two, in any order: the same bytes again.'
run 'durpaxeta merge "${table[@]}" --part 1..2,0..2 host1.bin --part 0..1,0..2 host0.bin all.bin'
run 'durpaxeta same "${table[@]}" guests.bin all.bin'

say 'What guest 1 may see: its own column. The list of guest 0 is not in that file.'
run 'durpaxeta guest read "${table[@]}" --rights 0,1,0,1 guests.bin guest1.bin'
run 'durpaxeta show "${table[@]}" guest1.bin'
run 'grep -c "0-3,8" guest1.bin || true'
[ "$(grep -c '0-3,8' guest1.bin || true)" -eq 0 ]

say 'A damaged file is refused: 63 of the 64 bytes.'
run 'head -c 63 guests.bin > damaged.bin'
run 'durpaxeta check "${table[@]}" damaged.bin || echo "exit status $?"'
status=0
durpaxeta check "${table[@]}" damaged.bin > /dev/null || status=$?
[ "$status" -eq 8 ]

say 'The older, interleaved form can be converted.'
run "printf '\\002\\000\\000\\000\\003\\000\\000\\0000-3\\000\\000\\000\\000' > old.bin"
run 'durpaxeta convert --kind "depth 0, ragged, width 8, index at start" --shape 2 old.bin new.bin'
run 'durpaxeta show --kind "depth 0, ragged, width 8, index at start" --shape 2 new.bin'

printf '\nDemonstration: all as it should be.\n'
