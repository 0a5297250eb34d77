# A text, and the header, as pages for troff: what is prose flows to the width of the terminal. man.sh calls this.
#
#   awk -f man.awk                      a text as durpaxeta --help prints it
#   awk -v part=PART -f man.awk HEADER  of the header: introduction, types, functions or calls
#
# In a text, lines at the margin are a paragraph, and those of commands (durpaxeta ...) keep their lines. What is indented is a list,
# where its first line has a tag, two blanks and words; prose, where it begins with an upper-case letter; else it stands as it is.

# Text as it stands, for troff.
function plain(s) {
    gsub(/\\/, "\\e", s)
    gsub(/-/, "\\-", s)
    gsub(/'/, "\\(aq", s)
    gsub(/`/, "\\(ga", s)
    gsub(/\^/, "\\(ha", s)
    gsub(/~/, "\\(ti", s)
    sub(/^\./, "\\\\\\&.", s)
    return s
}
function trim(s) {
    sub(/^ +/, "", s)
    sub(/ +$/, "", s)
    return s
}
function indent(s) {
    match(s, /^ */)
    return RLENGTH
}
# Where the words behind a tag begin, from 1; 0 where the line has none.
function words_at(s) { return match(s, /[^ ]  +[^ ]/) ? RSTART + RLENGTH - 1 : 0 }
# A line that may break, and goes on four columns in.
function hanging(s) { return ".HP 4\n" plain(s) "\n" }
function item(tag, words) { return ".TP 18\n" plain(trim(tag)) "\n" (words == "" ? "" : plain(words) "\n") }

# An indented block: lines at[1] to at[n].
function block(n,    i, s, base, column, roff, deep) {
    base = indent(at[1])
    if (examples || !(words_at(at[1]) || at[1] ~ /^ *[A-Z(]/)) {
        roff = ".RS 4\n.nf\n"
        for (i = 1; i <= n; i++)
            roff = roff plain(substr(at[i], base + 1)) "\n"
        return roff ".fi\n.RE\n"
    }
    roff = ".RS 2\n.PD 0\n"
    column = words_at(at[1])
    for (i = 1; i <= n; i++) {
        s = at[i]
        # numbers are set flush right, so base is that of any item
        deep = i > 1 && indent(s) > base + 2
        if (!deep && words_at(s))
            roff = roff item(substr(s, 1, words_at(s) - 1), substr(s, words_at(s)))
        else if (!deep && column && substr(s, column - 1, 1) == " " && substr(s, column, 1) ~ /[^ ]/)
            roff = roff item(substr(s, 1, column - 1), substr(s, column))
        else if (!deep && i < n && indent(at[i + 1]) > base + 2)
            roff = roff item(s, "")
        else
            roff = roff (deep || !column && i > 1 ? "" : ".PP\n") plain(trim(s)) "\n"
    }
    return roff ".PD\n.RE\n"
}
function paragraph(n,    i, roff) {
    if (at[1] ~ /^durpaxeta /)
        for (i = 1; i <= n; i++)
            roff = roff (i == 2 ? ".PD 0\n" : "") hanging(at[i])
    else {
        roff = ".PP\n"
        for (i = 1; i <= n; i++)
            roff = roff plain(at[i]) "\n"
    }
    return roff (at[1] ~ /^durpaxeta / && n > 1 ? ".PD\n" : "")
}
# A text of many lines: blocks of lines at the margin, and of indented ones.
function text(lines,    line, count, n, i, roff) {
    count = split(lines, line, "\n")
    n = 0
    examples = 0
    for (i = 1; i <= count + 1; i++) {
        if (n && (i > count || line[i] == "" || (indent(line[i]) > 0) != (indent(at[1]) > 0))) {
            roff = roff (indent(at[1]) ? block(n) : paragraph(n))
            examples = at[n] == "Examples:"
            n = 0
        }
        if (i <= count && line[i] != "")
            at[++n] = line[i]
    }
    return roff
}

# ---- the header

function name_of(declaration) { return match(declaration, /[a-z_]+\(/) ? substr(declaration, RSTART, RLENGTH - 1) : "" }
# Each argument stays in one line.
function prototype(s,    n, i, argument, roff) {
    sub(/^static inline /, "", s)
    n = split(s, argument, /, */)
    for (i = 1; i <= n; i++) {
        argument[i] = plain(trim(argument[i]))
        gsub(/ +/, "\\ ", argument[i])
        roff = roff argument[i] (i < n ? ", " : "")
    }
    return ".HP 4\n" roff "\n"
}
function add(where, roff) { out[where] = out[where] roff }
# A declaration, and what the comment before it says.
function declare(s,    where) {
    if (name_of(s) == "") {
        if (comment != "")
            add("types", text(comment))
    } else {
        where = s ~ /^static/ ? "functions" : "calls"
        add(where, ".SS " name_of(s) "\n" prototype(s) text(comment))
    }
    comment = ""
}
# A field, a number or a macro: the words behind it, in as many lines as they take.
function field(s,    tag, words) {
    tag = s
    words = ""
    if (match(s, / *\/\*.*\*\//)) {
        tag = substr(s, 1, RSTART - 1)
        words = substr(s, RSTART, RLENGTH)
        gsub(/^ *\/\* *| *\*\/$/, "", words)
        gsub(/ +/, " ", words)
    }
    tag = trim(tag)
    sub(/[,;]$/, "", tag)
    gsub(/ +/, " ", tag)
    if (tag == "" && words != "")
        return ".PP\n" plain(words) "\n"
    return tag == "" ? "" : ".RS 2\n.PD 0\n" item(tag, words) ".PD\n.RE\n"
}

part == "" {
    all = all $0 "\n"
    next
}
FNR == NR {
    if (/^#undef /)
        of_its_own[$2]
    next
}
/^#define/ && ($2 in of_its_own || $2 ~ /_H$/) { next }
/^#define/ {
    declare("")
    add("types", field(substr($0, 9)))
    next
}
/^#/ || /^extern "C"/ { next }
/^\/\*$/ {
    comment = ""
    inside = 1
    next
}
inside && /^ \*\/$/ {
    inside = 0
    if (!introduced) {
        introduced = 1
        add("introduction", comment)
        comment = ""
    }
    next
}
inside {
    sub(/^ \* ?/, "")
    comment = comment $0 "\n"
    next
}
/^\/\*.*\*\/$/ {
    comment = substr($0, 4, length($0) - 6)
    next
}
/^$/ {
    # a comment of its own: a heading, and what it says
    if (match(comment, /^[A-Z]+: /))
        add("functions", ".SS " substr(comment, 1, RLENGTH - 2) "\n" text(toupper(substr(comment, RLENGTH + 1, 1)) substr(comment, RLENGTH + 2)))
    comment = ""
    next
}
/^\{/ { body = 1 }
/^\}/ && body {
    body = 0
    next
}
body { next }
# enum and struct
/^(typedef struct|enum) [a-z_]+ \{$/ {
    declare("")
    sub(/^typedef /, "")
    sub(/ \{$/, "")
    add("types", ".PP\n" plain($0) "\n")
    within = 1
    next
}
within && /^\}/ {
    within = 0
    next
}
within {
    held = held == "" ? $0 : held " " trim($0)
    if (held ~ /\/\*/ && held !~ /\*\//)
        next
    add("types", field(held))
    held = ""
    next
}
/^enum / {
    declare("")
    add("types", field($0))
    next
}
# a function, in as many lines as it takes
/^[a-z]/ || declared != "" {
    declared = declared == "" ? $0 : declared " " trim($0)
    if (declared ~ /;$/ || declared ~ /\)$/) {
        sub(/;?$/, ";", declared)
        declare(declared)
        declared = ""
    }
    next
}
END {
    if (part == "")
        printf "%s", text(all)
    else if (part == "introduction")
        printf "%s", text(substr(out[part], index(out[part], "\n") + 1))
    else
        printf "%s", out[part]
}
