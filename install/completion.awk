# Prints what completes the words of a program in a shell, of the help texts that `make.sh` puts together. `program` and `shell` are
# set; `lists.awk` stands in front.

/^\f/ { command = substr($0, 2) }
sub(/^Commands:\n/, "") { commands = read_list($0, name, about) }
sub(/^Options:\n/, "") {
    count = read_list($0, entry, said)
    for (i = 1; i <= count; i++) add_flag(entry[i], said[i])
}

# Takes note of a flag of the command, or of the program, as `-h, --help` or `--region <region>`.
function add_flag(entry, said) {
    of[++flags] = command
    means[flags] = said
    takes[flags] = sub(/ *<.*/, "", entry)
    gsub(/,/, "", entry)
    spelt[flags] = entry
    if (flags_of[command] != "") flags_of[command] = flags_of[command] " "
    flags_of[command] = flags_of[command] entry
}

# A text as one word of the shell.
function quoted(text) {
    if (shell == "fish") gsub(/[\\']/, "\\\\&", text)
    else gsub(/'/, "'\\''", text)
    return "'" text "'"
}

# What prints the names of the public routines of a text, the word of the shell `file`.
function routines(file) {
    return "sed -n 's/^[ \t]*routine[ \t][ \t]*\\([A-Za-z0-9_]*\\)[ \t].*public.*/\\1/p; s/^pub fn \\([A-Za-z0-9_]*\\).*/\\1/p' " file " 2>/dev/null"
}

# The commands' names.
function all_commands(   i, out) {
    for (i = 1; i <= commands; i++) out = out (i == 1 ? "" : " ") name[i]
    return out
}

function print_bash(   i) {
    print "_" program "() {"
    print "    local words= flags="
    print "    case $COMP_CWORD:${COMP_WORDS[1]} in"
    print "    1:*) words=" quoted(all_commands()) " flags=" quoted(flags_of[""]) " ;;"
    print "    2:help) words=" quoted(all_commands()) " ;;"
    for (i = 1; i <= commands; i++) if (name[i] ~ /^(call|trace)$/)
        print "    3:" name[i] ") words=$(" routines("\"${COMP_WORDS[2]}\"") ") flags=" quoted(flags_of[name[i]]) " ;;"
    for (i = 1; i <= commands; i++) print "    *:" name[i] ") flags=" quoted(flags_of[name[i]]) " ;;"
    print "    esac"
    print "    case $2 in -*) words=$flags ;; esac"
    print "    COMPREPLY=($(compgen -W \"$words\" -- \"$2\"))"
    print "}"
    print "complete -o default -F _" program " " program
}

# The flags of a command, or of the program, as zsh describes them.
function described(command,   i, count, word, j, out) {
    for (i = 1; i <= flags; i++) {
        if (of[i] != command) continue
        count = split(spelt[i], word, " ")
        for (j = 1; j <= count; j++) out = out " " quoted(word[j] ":" means[i])
    }
    return "flags=(" substr(out, 2) ")"
}

function print_zsh(   i) {
    print "#compdef " program
    print "local -a commands flags"
    print "commands=("
    for (i = 1; i <= commands; i++) print "    " quoted(name[i] ":" about[i])
    print ")"
    print "case $CURRENT:$words[2] in"
    print "2:*) " described("") " ;;"
    for (i = 1; i <= commands; i++) print "*:" name[i] ") " described(name[i]) " ;;"
    print "esac"
    print "if [[ $PREFIX == -* ]]; then"
    print "    _describe -o flag flags"
    print "elif [[ $CURRENT == 2 || $CURRENT:$words[2] == 3:help ]]; then"
    print "    _describe command commands"
    print "elif [[ $CURRENT:$words[2] == 4:(call|trace) ]]; then"
    print "    compadd -- $(" routines("\"$words[3]\"") ")"
    print "else"
    print "    _files"
    print "fi"
}

function print_fish(   i, j, count, word, line) {
    for (i = 1; i <= commands; i++)
        print "complete -c " program " -n __fish_use_subcommand -f -a " name[i] " -d " quoted(about[i])
    print "complete -c " program " -n '__fish_seen_subcommand_from help' -f -a " quoted(all_commands())
    print "complete -c " program " -n '__fish_seen_subcommand_from call trace' -a \"(" routines("(commandline -opc)[3]") ")\""
    for (i = 1; i <= flags; i++) {
        line = "complete -c " program " -n " (of[i] == "" ? "__fish_use_subcommand" : quoted("__fish_seen_subcommand_from " of[i]))
        count = split(spelt[i], word, " ")
        for (j = 1; j <= count; j++) line = line (word[j] ~ /^--/ ? " -l " substr(word[j], 3) : " -s " substr(word[j], 2))
        print line (takes[i] ? " -r" : "") " -d " quoted(means[i])
    }
}

END {
    if (shell == "bash") print_bash()
    else if (shell == "zsh") print_zsh()
    else print_fish()
}
