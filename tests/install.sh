#!/usr/bin/env bash
# What make install puts where: a program builds and runs from the installed tree by its pkg-config file alone; DESTDIR; the man
# pages; make uninstall; and one version in all of it. Needs build/libdurpaxeta.a (make lib).
set -euo pipefail
cd "$(dirname "$0")/.."
unset MAKEFLAGS # of a make that runs this
folder=$(mktemp -d)
trap 'rm -rf "$folder"' EXIT
wrong() {
    echo "install: $*" >&2
    exit 1
}
make() { command make --no-print-directory --silent "$@"; }
files() { (cd "$1" && find . -type f | sort); }

version=$(cat VERSION)
prefix=$folder/usr
make install PREFIX="$prefix" > "$folder/said" || { cat "$folder/said"; wrong 'make install failed'; }
calls=$(package/calls.sh)
[ -n "$calls" ] || wrong 'no calls found in the header'
cat > "$folder/files" <<'END'
./bin/durpaxeta
./include/durpaxeta.h
./lib/libdurpaxeta.a
./lib/pkgconfig/durpaxeta.pc
./share/man/man1/durpaxeta.1
./share/man/man3/durpaxeta.3
END
sed 's|.*|./share/man/man3/&.3|' <<< "$calls" >> "$folder/files"
diff <(files "$prefix") <(sort "$folder/files") || wrong 'other files than these'

# A program, in a folder of its own. Where there is no pkg-config the file is read by the shell, whose ${..} it uses.
pc=$prefix/lib/pkgconfig/durpaxeta.pc
if command -v pkg-config > /dev/null; then
    how='by pkg-config'
    ask() { PKG_CONFIG_PATH=$prefix/lib/pkgconfig pkg-config "$@" durpaxeta; }
    flags=$(ask --cflags --libs)
    packaged=$(ask --modversion)
else
    how='by the lines of its pkg-config file; pkg-config is not here'
    flags=$(eval "$(grep = "$pc" | grep -v :)"; eval "echo $(sed -n 's/^Cflags: //p' "$pc") $(sed -n 's/^Libs: //p' "$pc")")
    packaged=$(sed -n 's/^Version: //p' "$pc")
fi
cat > "$folder/program.c" <<'END'
#include <durpaxeta.h>
#include <stdio.h>
int main(void)
{
    const uint64_t shape[] = {2, 2}, subset[] = {1, 0, 1, 2};
    uint64_t cells[2], length = 0;
    const uint32_t refusal = dpx_subset_cells(shape, 2, subset, 4, cells, 2, &length);
    printf("%s: %d and %d, version %s\n", dpx_refusal_text(refusal), (int)cells[0], (int)cells[1], DPX_VERSION);
    return 0;
}
END
# shellcheck disable=SC2086 # flags are words
(cd "$folder" && gcc -Wall -Wextra -Werror program.c $flags -o program && g++ -x c++ program.c -x none $flags -o program-cpp)
for program in program program-cpp; do
    said=$("$folder/$program")
    [ "$said" = "done: 2 and 3, version $version" ] || wrong "$program says '$said'"
done

# One version.
[ "$packaged" = "$version" ] || wrong "the pkg-config file is of version $packaged, VERSION of $version"
said=$("$prefix/bin/durpaxeta" --version)
[ "$said" = "durpaxeta $version" ] || wrong "the command says '$said', VERSION $version"
for manifest in bindings/rust/Cargo.toml tool/Cargo.toml; do
    grep -qx "version = \"$version\"" "$manifest" || wrong "$manifest has another version than $version"
done

# The pages have every call and every command. Each call's own page leads to that of them all, and man finds it.
pages=$prefix/share/man
for call in $calls; do
    grep -qxF ".SS $call" "$pages/man3/durpaxeta.3" || wrong "$call is not in the man page"
    [ "$(cat "$pages/man3/$call.3")" = '.so man3/durpaxeta.3' ] || wrong "$call.3 leads elsewhere"
    if command -v man > /dev/null; then
        man -M "$pages" --pager=cat "$call" > "$folder/page" 2>&1 || { cat "$folder/page"; wrong "man does not find $call"; }
        grep -qF "$call(" "$folder/page" || wrong "man shows something else for $call"
    fi
done
commands=$(grep -oE '^ +(Command \{ )?name: "[a-z]+' tool/src/commands.rs | grep -oE '[a-z]+$' | sort -u)
[ -n "$commands" ] || wrong 'no commands found'
for command in $commands; do
    grep -qx ".SS $command" "$pages/man1/durpaxeta.1" || wrong "$command is not in the man page"
done

# Troff has nothing to say about them, and they flow: to a narrow terminal, where examples alone keep their lines, and to a wide one.
if command -v groff > /dev/null; then
    # shellcheck disable=SC2086 # none is no word
    for command in '' $commands; do "$prefix/bin/durpaxeta" help $command | sed '1,/^Examples:/d; s/^ *//'; done > "$folder/examples"
    for page in "$pages"/man?/durpaxeta.?; do
        said=$(groff -k -man -ww -z -Tutf8 "$page" 2>&1)
        [ -z "$said" ] || wrong "$said"
        # at so many columns, the lines that are as long as that
        shown() { groff -k -man -Tascii -P-cbou -rLL="$1n" "$page" | grep -E "^.{$2}" | sed 's/^ *//' | sort -u || true; }
        beyond=$(shown 72 73 | grep -vxFf "$folder/examples" || true)
        [ -z "$beyond" ] || wrong "${page##*/} has lines that are wider than a terminal of 72 columns: $beyond"
        [ "$(shown 160 140 | grep -cvxFf "$folder/examples")" -ge 20 ] || wrong "${page##*/} does not use a wide terminal"
    done
    groff -k -man -Tutf8 "$pages/man1/durpaxeta.1" | grep -qF -- '--kind "depth 2, ragged' || wrong 'the man page has lost its text'
fi

# Staged: the files lie in DESTDIR and speak of PREFIX. Then away again.
make install DESTDIR="$folder/stage" PREFIX=/opt/durpaxeta > /dev/null
diff <(files "$prefix") <(files "$folder/stage/opt/durpaxeta") || wrong 'DESTDIR has other files'
grep -qx 'prefix=/opt/durpaxeta' "$folder/stage/opt/durpaxeta/lib/pkgconfig/durpaxeta.pc" || wrong 'the staged prefix is wrong'
if grep -rqF "$folder" "$folder/stage/opt/durpaxeta/lib/pkgconfig" "$folder/stage/opt/durpaxeta/share"; then
    wrong 'a staged file names DESTDIR'
fi
make uninstall DESTDIR="$folder/stage" PREFIX=/opt/durpaxeta > /dev/null
[ -z "$(files "$folder/stage")" ] || wrong 'make uninstall leaves files'
for target in install uninstall; do
    if make "$target" PREFIX=here > /dev/null 2>&1 || [ -e here ]; then
        wrong "make $target takes a PREFIX that is no absolute path"
    fi
done
echo "installed, built and run $how; version $version in the header, the command, the crates and the package"
