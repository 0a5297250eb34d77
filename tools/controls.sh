#!/usr/bin/env bash
# Tries the controls of must-fail edits: the nearest right program, edited at the same place, which the check must pass. An edit's file names it in
# a line '# control: TEXT', one for each line 'new:', in their order; rt reads no such line. Without names, of every crate.
# Usage: tools/controls.sh [CRATE..]
set -euo pipefail
cd "$(dirname "$0")/.."
folder=$PWD/build/controls
rm -rf "$folder"
mkdir -p "$folder"
trap 'rm -rf "$folder"' EXIT
tar -c --exclude=out crates crates.txt | tar -x -C "$folder"
python3 - "$folder" "$@" <<'END'
import pathlib, sys

root, names = pathlib.Path(sys.argv[1]), sys.argv[2:]
for edit in root.glob("crates/*/must-fail/*.edit"):
    lines = edit.read_text().splitlines()
    controls = [line[len("# control: "):] for line in lines if line.startswith("# control: ")]
    edit.unlink()
    if not controls or names and edit.parts[-3] not in names:
        continue
    wrong = [line for line in lines if line.startswith("new: ")]
    if len(wrong) != len(controls):
        sys.exit(f"{edit.name}: {len(wrong)} lines 'new:', {len(controls)} lines '# control:'")
    left = iter(controls)
    edit.write_text("".join(f"new: {next(left)}\n" if line.startswith("new: ") else line + "\n" for line in lines if not line.startswith("# control: ")))
END
cd "$folder"
mapfile -t crates < <(find crates -path '*/must-fail/*.edit' | cut -d/ -f2 | sort -u)
[ "${#crates[@]}" != 0 ] || { echo 'no controls'; exit 0; }
rt must-fail "${crates[@]}" > said 2>&1 || true
tried=$(find crates -path '*/must-fail/*.edit' | wc -l)
passed=$(grep -c ': NOT REFUSED' said || true)
grep '^rt: must-fail .*\.edit: ' said | grep -v ': NOT REFUSED' || true
echo "$tried controls tried, $passed pass"
[ "$tried" = "$passed" ]
