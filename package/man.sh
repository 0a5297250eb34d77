#!/usr/bin/env bash
# man.sh 1: the man page of the command, out of what it says itself by --help. Needs build/durpaxeta (make tool).
# man.sh 3: that of the C interface, out of the header.
set -euo pipefail
cd "$(dirname "$0")/.."

# What the page is of, and its names: man finds it by each. Lines are not spread to the width, and words are not cut.
head_of() {
    printf '.TH DURPAXETA %s "" "Durpaxeta %s"\n.ad l\n.nh\n.ss 12 0\n.SH NAME\n' "$1" "$(cat VERSION)"
    sed -e 's/^[Dd]urpaxeta: //' -e 's/\.$//' -e "s/^/$2 \\\\- /"
}
of_header() { awk -v part="$1" -f package/man.awk include/durpaxeta.h include/durpaxeta.h; }

case ${1:-} in
    1)
        help=$(build/durpaxeta --help)
        head -n 1 <<< "$help" | head_of 1 durpaxeta
        echo .SH DESCRIPTION
        tail -n +2 <<< "$help" | awk -f package/man.awk
        echo .SH COMMANDS
        # The list of commands is the first paragraph behind the title.
        for command in $(sed -n '3,/^$/s/^  durpaxeta \([a-z]*\) .*/\1/p' <<< "$help"); do
            echo ".SS $command"
            build/durpaxeta help "$command" | awk -f package/man.awk
        done
        printf '.SH SEE ALSO\n.BR durpaxeta (3)\n'
        ;;
    3)
        names=$(package/calls.sh | sed 's/^/, /' | tr -d '\n')
        # The first line of the first comment names the thing.
        sed -n '2s/^ \* //p' include/durpaxeta.h | head_of 3 "durpaxeta$names"
        printf '.SH SYNOPSIS\n.nf\n#include <durpaxeta.h>\n\ncc program.c $(pkg\\-config \\-\\-cflags \\-\\-libs durpaxeta)\n.fi\n'
        for part in introduction:DESCRIPTION types:TYPES functions:FUNCTIONS calls:CALLS; do
            echo ".SH ${part#*:}"
            of_header "${part%:*}"
        done
        printf '.SH SEE ALSO\n.BR durpaxeta (1)\n'
        ;;
    *)
        echo 'man.sh: 1 or 3' >&2
        exit 1
        ;;
esac
