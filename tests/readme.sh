#!/usr/bin/env bash
# The README's commands and examples work as printed, in a folder that has what `make demo` leaves in build/. Needs
# build/libdurpaxeta.a (make lib). The folder has links, which rt ci takes nowhere in a checkout, so it lies outside.
set -euo pipefail
cd "$(dirname "$0")/.."
root=$PWD
out=$(mktemp -d)
trap 'rm -rf "$out"' EXIT
mkdir -p "$out/build" "$out/path/src" "$out/git/src" "$out/repository"
make --no-print-directory tool > /dev/null
ln -s "$root/build/libdurpaxeta.a" "$root/build/durpaxeta" "$root/include/durpaxeta.h" "$out/build/"

# The block behind the Nth fence of that language.
block() { awk -v fence="\`\`\`$1" -v wanted="$2" '$0 == fence {inside = ++n == wanted; next} /^```/ {inside = 0} inside' README.md; }

block sh 1 > "$out/table.sh"
block text 1 > "$out/table.txt"
block c 1 > "$out/example.c"
block sh 2 > "$out/example.sh"
block sh 3 > "$out/migrate.sh"
block text 2 > "$out/migrate.txt"
block rust 1 > "$out/path/src/main.rs"
for file in "$out"/table.sh "$out"/table.txt "$out"/example.c "$out"/example.sh "$out"/migrate.sh "$out"/migrate.txt "$out"/path/src/main.rs; do
    [ -s "$file" ] || { echo "readme: nothing for $file" >&2; exit 1; }
done

(cd "$out" && bash -eu table.sh) | diff "$out/table.txt" - || { echo 'readme: the first table is shown otherwise' >&2; exit 1; }

(cd "$out" && PATH="$out/build:$PATH" bash -eu migrate.sh) | diff "$out/migrate.txt" - || { echo 'readme: a table that is moved is shown otherwise' >&2; exit 1; }

gcc -std=c11 -Wall -Wextra -Werror -fsyntax-only -I"$out/build" "$out/example.c"
said=$(cd "$out" && bash -eu example.sh)
[ "$said" = '42 bytes' ] || { echo "readme: the C example says '$said'" >&2; exit 1; }

# Elsewhere than beside the repository: by a path, and out of git with what is installed. The repository here has the crates alone.
cp "$out/path/src/main.rs" "$out/git/src/main.rs"
tar -C "$root" --exclude=target -cf - VERSION bindings tool/Cargo.toml tool/src | tar -C "$out/repository" -xf -
git -C "$out/repository" init --quiet
git -C "$out/repository" add .
git -C "$out/repository" -c user.name=test -c user.email=test commit --quiet --message=test
for by in path git; do
    mapfile -t lines < <(grep -oE "durpaxeta = \{ $by = [^}]*\}" README.md)
    [ "${#lines[@]}" = 1 ] || { echo "readme: no line, or more than one, has the crate by its $by" >&2; exit 1; }
    line=${lines[0]//\/path\/to\/durpaxeta/$root}
    {
        printf '[package]\nname = "example-by-%s"\nversion = "0.0.0"\nedition = "2021"\n[dependencies]\n' "$by"
        printf '%s\n' "${line//\"URL\"/\"file://$out/repository\"}"
    } > "$out/$by/Cargo.toml"
done
export CARGO_TARGET_DIR="$root/build/cargo"
path() { cargo run --offline --quiet --manifest-path "$out/path/Cargo.toml"; }
# Out of that repository nothing is fetched.
by_git() { CARGO_HOME=$out/cargo CARGO_NET_OFFLINE=false DURPAXETA_LIB_DIR=$root/build cargo run --quiet --manifest-path "$out/git/Cargo.toml"; }
for by in path by_git; do
    said=$("$by")
    [ "$said" = '42 bytes' ] || { echo "readme: the Rust example, $by, says '$said'" >&2; exit 1; }
done
echo 'the first table and one that is moved are shown as printed; the examples in C and Rust, the latter by path and by git, say 42 bytes'
