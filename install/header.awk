# Prints the man page of headers in C in man's form: what their comments say, their declarations, and their numbers with texts. `version`
# and `date` are set. The first comment begins with what the page's name says; each other comment stands before what it is about.

# The characters of a text, each written so that it is printed as it is.
function plain(text) {
    gsub(/\\/, "\\(rs", text)
    gsub(/-/, "\\-", text)
    gsub(/'/, "\\(aq", text)
    gsub(/`/, "\\(ga", text)
    gsub(/\^/, "\\(ha", text)
    gsub(/~/, "\\(ti", text)
    return text ~ /^[.]/ ? "\\&" text : text
}

# What a comment says: its lines as they follow, a line of its own for each point of a list.
function said(comment,   count, line, i, out, text) {
    count = split(comment, line, "\n")
    for (i = 1; i <= count; i++) {
        text = line[i]
        sub(/^ *\/\* ?/, "", text)
        sub(/ *\*\/ *$/, "", text)
        sub(/^ *\* ?/, "", text)
        if (text ~ /^ *- /) {
            sub(/^ *- /, "", text)
            out = out ".IP \\(bu 2\n"
            in_list = 1
        } else if (text ~ /^ *$/) {
            if (in_list) out = out ".PP\n"
            else if (out != "") out = out ".PP\n"
            in_list = 0
            continue
        }
        sub(/^ +/, "", text)
        out = out plain(text) "\n"
    }
    in_list = 0
    gsub(/[.]PP\n[.]IP/, ".IP", out)
    sub(/([.]PP\n)+$/, "", out)
    return out
}

# Ends what a comment is about.
function finish() {
    if (comment == "") return
    if (description == "") {
        description = said(comment)
        name = description
        sub(/[.] .*/, "", name)
        sub(/^[^:]*: /, "", name)
        sub(/\n.*/, "", name)
        sub(/[.]$/, "", name)
    } else {
        calls = calls ".PP\n" said(comment)
        if (lines != "") calls = calls ".PP\n.EX\n" lines ".EE\n"
    }
    comment = lines = ""
}

# A declaration as C has it, without what only a compiler reads.
function declare(text) {
    sub(/^ *TAKHVOI_CALL /, "", text)
    sub(/^static inline /, "", text)
    lines = lines plain(text) "\n"
}

in_comment {
    comment = comment "\n" $0
    if (/\*\//) in_comment = 0
    next
}
in_body {
    if (match($0, /case [A-Z_]+: return "/)) {
        number = substr($0, RSTART + 5, RLENGTH - 5 - length(": return \""))
        text = substr($0, RSTART + RLENGTH)
        sub(/".*/, "", text)
        text_of[number] = text
    }
    if (/^}/) in_body = 0
    next
}
in_numbers {
    if (/^ *\/\*/) {
        numbers = numbers ".PP\n" said($0)
        next
    }
    if (/^}/) {
        in_numbers = 0
        comment = ""
        next
    }
    if (match($0, /[A-Z_]+ = [0-9]+/)) {
        split(substr($0, RSTART, RLENGTH), part, " = ")
        order[++order_count] = part[1]
        value_of[part[1]] = part[2]
        numbers = numbers "\f" part[1] "\n"
    }
    next
}
/^ *\/\*/ {
    finish()
    comment = $0
    in_comment = !/\*\//
    next
}
/^enum/ {
    finish()
    in_numbers = 1
    next
}
/^#define TAKHVOI_(CALL|USED|H|FILE_H)/ || /^#/ && !/^#define TAKHVOI_/ || /^extern "C"/ || /^ *$/ || /^}$/ { next }
/^#define/ {
    declare($0)
    next
}
/^static inline/ {
    sub(/ *{.*/, ";")
    declare($0)
    in_body = 1
    next
}
{ declare($0) }

END {
    finish()
    print ".TH TAKHVOI 3 " date " \"takhvoi " version "\""
    print ".SH NAME\ntakhvoi \\- " name
    print ".SH SYNOPSIS\n.nf\n.B #include <takhvoi.h>\n.PP\ncc $(pkg\\-config \\-\\-cflags takhvoi) program.c $(pkg\\-config \\-\\-libs takhvoi)\n.fi"
    printf ".SH DESCRIPTION\n%s", description
    sub(/^[.]PP\n/, "", calls)
    printf ".SH CALLS\n%s", calls
    print ".SH NUMBERS"
    count = split(numbers, line, "\n")
    for (i = 1; i < count; i++) {
        if (line[i] !~ /^\f/) print line[i]
        else {
            number = substr(line[i], 2)
            print ".TP\n.BR " number " \" (" value_of[number] ")\"\n" plain(text_of[number]) "."
        }
    }
    print ".SH \"SEE ALSO\"\n.BR geos (1)"
}
