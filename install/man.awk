# Prints a page in man's form of the help texts that `make.sh` puts together. `program`, `version` and `date` are set; `lists.awk` stands
# in front.

# The characters of a text, each written so that it is printed as it is.
function plain(text) {
    gsub(/\\/, "\\(rs", text)
    gsub(/-/, "\\-", text)
    gsub(/'/, "\\(aq", text)
    gsub(/`/, "\\(ga", text)
    gsub(/\^/, "\\(ha", text)
    gsub(/~/, "\\(ti", text)
    return text
}

# The same, with what stands between backticks in bold.
function spoken(text,   count, piece, i, out) {
    gsub(/\n/, " ", text)
    count = split(text, piece, "`")
    if (count % 2 == 0) return plain(text)
    for (i = 1; i <= count; i++) out = out (i % 2 ? plain(piece[i]) : "\\fB" plain(piece[i]) "\\fR")
    return out
}

# A line that is no request, and that ends a sentence only where `ends` says so.
function line_of(text, ends) {
    if (text ~ /^[.]/) text = "\\&" text
    if (!ends && text ~ /[.?!](\\fR)?$/) text = text "\\&"
    return text "\n"
}

# Words in lines; each sentence begins one of its own.
function flow(text,   count, word, i, begun, ends, out) {
    count = split(spoken(text), word, " ")
    for (i = 1; i <= count; i++) {
        if (begun != "" && length(begun word[i]) > 75) {
            out = out line_of(begun, 0)
            begun = ""
        }
        begun = begun (begun == "" ? "" : " ") word[i]
        ends = word[i] ~ /[^.][.]$/
        if (ends || i == count) {
            out = out line_of(begun, ends)
            begun = ""
        }
    }
    return out
}

# Usages as they stand: words that stand for others in italics, the other words in bold.
function usages(text,   count, line, i, word, out) {
    count = split(text, line, "\n *")
    for (i = 1; i <= count; i++) {
        while (match(line[i], /[-A-Za-z]+/)) {
            word = substr(line[i], RSTART, RLENGTH)
            out = out plain(substr(line[i], 1, RSTART - 1)) (word ~ /^[A-Z]+$/ ? "\\fI" : "\\fB") plain(word) "\\fR"
            line[i] = substr(line[i], RSTART + RLENGTH)
        }
        out = out plain(line[i]) "\n"
    }
    return ".nf\n" out ".fi\n"
}

# Whether indented lines are a list: each begins an entry of which it says something, or goes on with that.
function is_list(text,   count, line, i) {
    count = split(text, line, "\n")
    for (i = 1; i <= count; i++) if (line[i] ~ /^  [^ ]/ ? !said_at(line[i]) : i == 1) return 0
    return 1
}

# The lines of a list. A command's flag for its help is not said again.
function list(text,   count, entry, said, i, out) {
    count = read_list(text, entry, said)
    for (i = 1; i <= count; i++)
        if (command == "" || entry[i] !~ /--help$/) out = out ".TP\n" line_of("\\fB" plain(entry[i]) "\\fR", 0) flow(said[i])
    return out
}

# Lines as they stand.
function example(text,   count, line, i, out) {
    count = split(text, line, "\n")
    for (i = 1; i <= count; i++) out = out line_of(plain(line[i]), 0)
    return ".EX\n" out ".EE\n"
}

# A paragraph. Indented lines in it are a list or an example.
function paragraph(text,   size, part, out) {
    while (text != "") {
        if (text ~ /^ /) match(text, /^ [^\n]*(\n [^\n]*)*/)
        else match(text, /^[^\n]*(\n[^ \n][^\n]*)*/)
        size = RLENGTH
        part = substr(text, 1, size)
        text = substr(text, size + 2)
        if (part !~ /^ /) out = out ".PP\n" flow(part)
        else out = out (is_list(part) ? list(part) : example(part))
    }
    return out
}

# A section, if there is anything in it. Its head stands for the mark of its first paragraph.
function section(head, text) {
    sub(/^[.]PP\n/, "", text)
    return text == "" ? "" : head "\n" text
}

# What a text says first, as a page's name says it.
function title(text) {
    gsub(/\n/, " ", text)
    sub(/[.] .*|[.]$/, "", text)
    return tolower(substr(text, 1, 1)) substr(text, 2)
}

# Ends the text of the program, or of a command.
function finish() {
    if (command == "") description = said
    else commands = commands section(".SS " program " " plain(command), said)
    said = about = ""
}

/^\f/ {
    finish()
    command = substr($0, 2)
    next
}
about == "" {
    about = said = paragraph($0)
    if (command == "") name = title($0)
    next
}
/^Usage: / {
    if (command == "") synopsis = usages(substr($0, 8))
    else said = usages(substr($0, 8)) about
    next
}
/^Commands:\n/ { next }
/^(Arguments|Options):\n/ {
    sub(/^[^\n]*\n/, "")
    if (command == "") options = list($0)
    else said = said list($0)
    next
}
command == "" && sub(/^Examples?:[ \n]/, "") {
    examples = examples paragraph($0)
    next
}
command == "" && sub(/^Status: /, "") {
    status = paragraph($0)
    next
}
{ said = said paragraph($0) }

END {
    finish()
    print ".TH " toupper(program) " 1 " date " \"" version "\""
    printf "%s", section(".SH NAME", flow(program " - " name))
    printf "%s", section(".SH SYNOPSIS", synopsis) section(".SH DESCRIPTION", description) section(".SH OPTIONS", options)
    printf "%s", section(".SH COMMANDS", commands) section(".SH \"EXIT STATUS\"", status) section(".SH EXAMPLES", examples)
}
