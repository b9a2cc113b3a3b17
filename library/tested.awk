# Prints a header in C with an inline function for each call that headers in C declare, in place of it: where a pointer is null it answers
# TAKHVOI_NULL_POINTER and calls nothing. A pointer in front of a length may be null where that is 0.

# The declaration of a call, in one line without comments.
function take(text,   count, i, name, parameters, parameter, word, args, tests, none, kind) {
    name = text
    sub(/[(].*/, "", name)
    sub(/.* /, "", name)
    sub(/^[^(]*[(]/, "", text)
    sub(/[)];$/, "", text)
    if (text == "void") return
    parameters = text
    count = split(text, parameter, /, */)
    for (i = 1; i <= count; i++) {
        word[i] = parameter[i]
        sub(/\[[0-9]*\]$/, "", word[i])
        sub(/.*[ *]/, "", word[i])
    }
    for (i = 1; i <= count; i++) {
        args = args (i > 1 ? ", " : "")
        if (parameter[i] !~ /[*\[]/) {
            args = args word[i]
        } else if (i < count && parameter[i + 1] ~ /^size_t /) {
            kind = parameter[i]
            sub(/ *[*].*/, "", kind)
            tests = tests (tests == "" ? "" : " || ") "(" word[i] " == NULL && " word[i + 1] " > 0)"
            none = none "    uint64_t no_" word[i] " = 0;\n"
            args = args word[i] " != NULL ? " word[i] " : (" kind " *)&no_" word[i]
        } else {
            tests = tests (tests == "" ? "" : " || ") word[i] " == NULL"
            args = args word[i]
        }
    }
    print (is_used ? "TAKHVOI_USED " : "") "static inline uint32_t tested_" name "(" parameters ") {"
    printf "%s", none
    print "    if (" tests ") return TAKHVOI_NULL_POINTER;"
    print "    return " name "(" args ");\n}"
    print "#define " name " tested_" name "\n"
}

BEGIN {
    print "/* Part of takhvoi.h, made from it: each call with a test of its pointers in front. */\n"
}
/\/\*/ { in_comment = 1 }
in_comment { if (/\*\//) in_comment = 0; next }
/^(TAKHVOI_CALL )?uint32_t takhvoi_/ { declaration = ""; in_declaration = 1; is_used = /^TAKHVOI_CALL/ }
in_declaration {
    line = $0
    gsub(/^ +/, "", line)
    declaration = declaration (declaration == "" ? "" : " ") line
    if (line ~ /;$/) { in_declaration = 0; take(declaration) }
}
