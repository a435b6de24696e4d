#!/bin/sh
# tools/packaging/completions.sh SHELL PROGRAM: prints the program's completions for bash, zsh or fish. Commands, options and
# their arguments come from the program's own help. The program itself reports what depends on the registry on the line: `bcs
# show` lists containers and the variants of an enum, and `bcs explain` the names of the parts of FILE. Of the containers, those
# are offered whose names have only characters of names in Rust and of types in Move. The completions ask the
# program that is installed beside them (../../../bin/bcs from their file), and never one that the line or PATH happens to name.
# shellcheck disable=SC2016 # these are programs in awk, bash, zsh and fish, in which $ has a meaning of its own
set -eu
unset CDPATH
here=$(cd "$(dirname "$0")" && pwd)

fail() {
    printf 'tools/packaging/completions.sh: %s\n' "$1" >&2
    exit 1
}

# What all three need from a line of the help's table.
read_help='
    BEGIN {
        split("REG OLD NEW FILE A B MODULES", files, " ")
        for (at in files) stands_for["" files[at]] = "file"
        stands_for["FORMAT"] = stands_for["NAME"] = "container"
        stands_for["PATH"] = "path"
        stands_for["TYPE"] = "type"
        values["variant"] = "variants"; values["name"] = "parts"; values["output"] = "files"
        values["color"] = "always auto never"; values["refusals"] = "json"
        needs_equals["color"] = 1
    }
    # (Every awk has rules of its own for backslashes in the text that gsub puts in.)
    function in_quotes(text,    parts, count, at, quoted) {
        count = split(text, parts, "\047")
        quoted = parts[1]
        for (at = 2; at <= count; at++) quoted = quoted quote_within parts[at]
        return "\047" quoted "\047"
    }
    $1 == "command" { commands = commands (commands == "" ? "" : " ") $3; texts[$3] = $4 }
    $1 == "argument" {
        word = $3; gsub(/[^A-Z]/, "", word)
        kind = stands_for[word]
        if (kind == "") { print "tools/packaging/completions.sh: unknown argument in the help: " $3 >"/dev/stderr"; failed = 1; exit 1 }
        place = ++words[$2]
        is_repeated = $3 ~ /\.\.\.$/
    }
    $1 == "option" {
        has_value = sub(/ <.*/, "", $3)
        short = $3 ~ /^-[a-zA-Z],/ ? substr($3, 2, 1) : ""
        sub(/.*--/, "", $3)
    }'

bash_completions='
    $1 == "argument" { kinds[$2] = kinds[$2] " " kind }
    $1 == "option" { options[$2] = options[$2] (short == "" ? " " : " -" short " ") "--" $3 }
    has_value && !($3 in needs_equals) && !seen[$3]++ { valued = valued (valued == "" ? "" : " | ") (short == "" ? "" : "-" short " | ") "--" $3 }
    { has_value = 0 }
    END {
        if (failed) exit 1
        print "_bcs() {"
        print "    local line=() words=() coding=() kinds=() word option= options=\047" substr(options[""], 2) "\047 at"
        print "    COMPREPLY=()"
        print "    _bcs_read_line"
        print "    word=${line[-1]}"
        print "    for ((at = 1; at < ${#line[@]} - 1; at++)); do"
        print "        case ${line[at]} in"
        print "            " valued ") option=${line[at]} at=$((at + 1)) ;;"
        print "            --raw | --base64) coding+=(\"${line[at]}\") ;;"
        print "            -*) ;;"
        print "            *) words+=(\"${line[at]}\") ;;"
        print "        esac"
        print "    done"
        print "    if [ \"$at\" = ${#line[@]} ]; then"
        print "        _bcs_complete_value \"$option\" \"$word\""
        print "        return 0"
        print "    elif [[ $word == --*=* ]]; then"
        print "        _bcs_complete_value \"${word%%=*}\" \"${word#*=}\""
        print "        return 0"
        print "    fi"
        print "    case ${words[0]} in"
        count = split(commands, names, " ")
        for (at = 1; at <= count; at++) if (names[at] in options)
            print "        " names[at] ") options=\047" substr(options[names[at]], 2) "\047 kinds=(" substr(kinds[names[at]], 2) ") ;;"
        print "        help) options=\047\047 words=(\"${words[@]:1}\") ;;"
        print "    esac"
        print "    if _bcs_is_named; then kinds=(\"${kinds[@]/#path/file}\"); fi"
        print "    if [[ $word == -* ]]; then"
        print "        mapfile -t COMPREPLY < <(compgen -W \"$options\" -- \"$word\")"
        print "    elif [ ${#words[@]} = 0 ]; then"
        print "        mapfile -t COMPREPLY < <(compgen -W \047" commands "\047 -- \"$word\")"
        print "    elif [ \"${kinds[${#words[@]} - 1]}\" = container ]; then"
        print "        _bcs_offer \"$word\" < <(_bcs_containers \"${words[1]}\")"
        print "    elif [ \"${kinds[${#words[@]} - 1]}\" = file ]; then"
        print "        compopt -o default"
        print "    fi"
        print "}"
        print "complete -F _bcs bcs"
    }'
bash_containers='
_bcs_program=$(readlink -f -- "${BASH_SOURCE[0]}")
_bcs_program=${_bcs_program%/share/bash-completion/completions/*}/bin/bcs

# Sets `line` to the words up to the cursor. COMP_WORDS has them in pieces, since bash splits words at = : < and >, too.
_bcs_read_line() {
    local rest=$COMP_LINE piece
    for piece in "${COMP_WORDS[@]:0:COMP_CWORD + 1}"; do
        if [[ ${#line[@]} = 0 || $rest == [[:space:]]* ]]; then line+=(""); fi
        rest=${rest#"${rest%%[![:space:]]*}"}
        rest=${rest#"$piece"}
        line[-1]+=$piece
    done
}

# _bcs_plain WORD: the word as it is on the line, without its quotes, which xargs takes away.
_bcs_plain() {
    xargs printf %s 2>/dev/null <<<"${1/#\~\//$HOME/}"
}

# _bcs_offer TYPED: reads names, and offers those that begin like what is typed, quoted like it. Each is offered from where
# readline inserts it: behind the quote, or behind the last colon.
_bcs_offer() {
    local quote="" kept name
    if [[ $1 == ["\"'"'"'"]* ]]; then quote=${1:0:1}; fi
    kept=$quote
    if [[ ! $quote && $COMP_WORDBREAKS == *:* ]]; then kept=${1%"${1##*:}"}; fi
    while IFS= read -r name; do
        if [ ! "$quote" ]; then printf -v name %q "$name"; fi
        if [[ $quote$name == "$1"* ]]; then name=$quote$name && COMPREPLY+=("${name#"$kept"}"); fi
    done
}

# _bcs_show REGISTRY: prints what the registry has, if it is one.
_bcs_show() {
    local registry lines
    registry=$(_bcs_plain "$1")
    [[ $registry == "{"* || -f $registry ]] || return 0
    lines=$("$_bcs_program" show --quiet -- "$registry" 2>/dev/null </dev/null) || return 0
    printf "%s\n" "$lines"
}

_bcs_containers() {
    _bcs_show "$1" | sed -n "s/^\([A-Za-z_][A-Za-z_0-9]*\): .*/\1/p; s/^\"\([A-Za-z_0-9][A-Za-z_0-9:<>, ]*\)\": .*/\1/p"
}

# _bcs_variants REGISTRY FORMAT
_bcs_variants() {
    local name
    name=$(_bcs_plain "$2")
    [[ $name && $name != *[!A-Za-z_0-9:\<\>,\ ]* ]] || return 0
    _bcs_show "$1" | sed -n "/^\"\{0,1\}$name\"\{0,1\}: ENUM/,/^[^ ]/s/^  [0-9]* \"\{0,1\}\([A-Za-z_][A-Za-z_0-9]*\).*/\1/p"
}

# _bcs_parts REGISTRY FORMAT FILE [--raw] [--base64]
_bcs_parts() {
    local registry format file lines
    registry=$(_bcs_plain "$1") format=$(_bcs_plain "$2") file=$(_bcs_plain "$3")
    [[ ($registry == "{"* || -f $registry) && -f $file ]] || return 0
    lines=$("$_bcs_program" explain --quiet "${@:4}" -- "$registry" "$format" "$file" 2>/dev/null </dev/null) || return 0
    printf "%s\n" "$lines" | sed -n "s/^.* \([].:?[][]A-Za-z_0-9.:?[]*\)$/\1/p"
}

# Whether an option names the part, so that FILE is in the place of PATH.
_bcs_is_named() {
    [[ " ${COMP_WORDS[*]} " == *" --"@(name|pointer)[\ =]* ]]
}

# _bcs_complete_value OPTION TYPED: offers values that begin like what is typed, each from its last colon on.
_bcs_complete_value() {
    local offered=""
    case $1 in
        --variant) offered=$(_bcs_variants "${words[1]}" "${words[2]}") ;;
        --name) offered=$(_bcs_parts "${words[1]}" "${words[2]}" "${words[3]}" "${coding[@]}" | sort -u) ;;
        --color) offered="always auto never" ;;
        --refusals) offered=json ;;
        -o | --output) compopt -o default && return ;;
    esac
    mapfile -t COMPREPLY < <(compgen -W "$offered" -- "$2")
    COMPREPLY=("${COMPREPLY[@]#"${2%"${2##*:}"}"}")
}
'

zsh_completions='
    function spec(text) { gsub(/\[/, "\\[", text); gsub(/\]/, "\\]", text); gsub(/:/, "\\:", text); return text }
    $1 == "argument" { action = kind == "file" ? "_files" : kind == "container" ? "_bcs_containers" : kind == "path" ? "_bcs_path" : " "
        add($2, (is_repeated ? "*" : place) ":" word ":" action) }
    function add(command, text) { specs[command] = specs[command] " " in_quotes(text) }
    $1 == "option" && short != "" { add($2, "-" short (has_value ? "+" : "") "[" spec($4) "]" (has_value ? ":value:" value($3) : "")) }
    function value(name) {
        return values[name] == "" ? " " : values[name] == "files" ? "_files" : values[name] ~ /^(variants|parts)$/ ? "_bcs_" values[name] : "(" values[name] ")"
    }
    $1 == "option" {
        add($2, "--" $3 (has_value ? "=" : "") ($3 in needs_equals ? "-" : "") "[" spec($4) "]" (has_value ? ($3 in needs_equals ? "::value:" : ":value:") value($3) : ""))
    }
    END {
        if (failed) exit 1
        count = split(commands, names, " ")
        print "_bcs() {"
        print "    local curcontext=$curcontext state line"
        print "    typeset -A opt_args"
        print "    local -a commands"
        print "    commands=("
        for (at = 1; at <= count; at++) print "        " in_quotes(names[at] ":" texts[names[at]])
        print "    )"
        print "    _arguments -C" specs[""] " \0471:command:->command\047 \047*::word:->words\047 && return"
        print "    case $state in"
        print "        command) _describe -t commands command commands ;;"
        print "        words)"
        print "            case $words[1] in"
        for (at = 1; at <= count; at++) if (names[at] in specs) print "                " names[at] ") _arguments" specs[names[at]] " ;;"
        print "                help) _arguments \0471:command: _describe -t commands command commands\047 ;;"
        print "            esac"
        print "            ;;"
        print "    esac"
        print "}"
        print "_bcs \"$@\""
    }'
zsh_containers='
typeset -g _bcs_program=${${(%):-%x}:A}
_bcs_program=${_bcs_program%/share/zsh/site-functions/*}/bin/bcs

# _bcs_file WORD: the word without its quotes, in REPLY.
_bcs_file() { REPLY=${(Q)1/#\~\//$HOME/} }

# Prints what the registry on the line has, if it is one.
_bcs_show() {
    local lines REPLY
    _bcs_file "$line[1]"
    [[ $REPLY == "{"* || -f $REPLY ]] || return 1
    lines=$($_bcs_program show --quiet -- $REPLY 2>/dev/null </dev/null) || return 1
    print -r -- $lines
}

_bcs_containers() {
    local -a names
    names=(${(f)"$(_bcs_show | sed -n "s/^\([A-Za-z_][A-Za-z_0-9]*\): .*/\1/p; s/^\"\([A-Za-z_0-9][A-Za-z_0-9:<>, ]*\)\": .*/\1/p")"})
    compadd -a names
}

# With an option that names the part, FILE is in the place of PATH.
_bcs_path() {
    (( ${words[(I)--(name|pointer)(|=*)]} )) && _files
}

_bcs_variants() {
    local -a names
    local name=${(Q)line[2]}
    [[ -n $name && $name != *[^A-Za-z_0-9:\<\>,\ ]* ]] || return 1
    names=(${(f)"$(_bcs_show | sed -n "/^\"\{0,1\}$name\"\{0,1\}: ENUM/,/^[^ ]/s/^  [0-9]* \"\{0,1\}\([A-Za-z_][A-Za-z_0-9]*\).*/\1/p")"})
    compadd -a names
}

_bcs_parts() {
    local registry lines REPLY
    local -a names coding
    _bcs_file "$line[1]" && registry=$REPLY
    _bcs_file "$line[3]"
    [[ ($registry == "{"* || -f $registry) && -f $REPLY ]] || return 1
    (( ${words[(I)--raw]} )) && coding+=(--raw)
    (( ${words[(I)--base64]} )) && coding+=(--base64)
    lines=$($_bcs_program explain --quiet $coding -- $registry ${(Q)line[2]} $REPLY 2>/dev/null </dev/null) || return 1
    names=(${(fu)"$(print -r -- $lines | sed -n "s/^.* \([].:?[][]A-Za-z_0-9.:?[]*\)\$/\1/p")"})
    compadd -a names
}
'

fish_completions='
    BEGIN { print "complete -c bcs -f" }
    function rule(condition, rest) { lines = lines "complete -c bcs -n " in_quotes(condition) " " rest "\n" }
    $1 == "command" { rule("__bcs_at 0", "-a " $3 " -d " in_quotes($4)); rule("__bcs_at 1 help", "-a " $3 " -d " in_quotes($4)) }
    $1 == "argument" && kind == "file" { rule("__bcs_at " place " " $2, "-F") }
    $1 == "argument" && kind == "path" { rule("__bcs_is_named; and __bcs_at " place " " $2, "-F") }
    $1 == "argument" && kind == "container" { rule("__bcs_at " place " " $2, "-a \"(__bcs_containers)\"") }
    function value(name) {
        if (values[name] == "") return " -x"
        if (values[name] == "files") return " -r -F"
        if (name in needs_equals) return " -f -a " in_quotes(values[name])
        return " -x -a " in_quotes(values[name] ~ /^(variants|parts)$/ ? "(__bcs_" values[name] ")" : values[name])
    }
    $1 == "option" { rule($2 == "" ? "__bcs_at 0" : "__bcs_in " $2,
        (short == "" ? "" : "-s " short " ") "-l " $3 (has_value ? value($3) : "") " -d " in_quotes($4)) }
    has_value && !($3 in needs_equals) && !seen[$3]++ { valued = valued (short == "" ? "" : " -" short) " --" $3 }
    { has_value = 0 }
    END { if (failed) exit 1; print "set -g __bcs_valued" valued; printf "%s", lines }'
fish_containers='
set -g __bcs_program (string replace -r "/share/fish/vendor_completions.d/[^/]*\$" "/bin/bcs" -- (realpath (status filename)))

# The words before the cursor, except for the program, options and their values.
function __bcs_words
    set -l is_value no
    for word in (commandline -opc)[2..-1]
        if test $is_value = yes
            set is_value no
        else if contains -- $word $__bcs_valued
            set is_value yes
        else if not string match -q -- "-*" $word
            printf "%s\n" $word
        end
    end
end

# __bcs_at NUMBER [COMMAND]: whether there are that many words, and the first one is the command.
function __bcs_at
    set -l words (__bcs_words)
    test (count $words) = $argv[1]; and begin; test (count $argv) = 1; or test $words[1] = $argv[2]; end
end

function __bcs_in
    set -l words (__bcs_words)
    test (count $words) -gt 0; and test $words[1] = $argv[1]
end

# Whether an option names the part, so that FILE is in the place of PATH.
function __bcs_is_named
    string match -qr -- "^--(?:name|pointer)(?:=|\$)" (commandline -opc)
end

# Prints what the registry on the line has, if it is one.
function __bcs_show
    set -l registry (string replace -r "^~/" "$HOME/" -- (__bcs_words)[2])
    string match -q "{*" -- "$registry"; or test -f "$registry"; or return
    set -l lines ($__bcs_program show --quiet -- "$registry" 2>/dev/null </dev/null); or return
    printf "%s\n" $lines
end

function __bcs_containers
    string replace -rf "^(?:([A-Za-z_][A-Za-z_0-9]*)|\"([A-Za-z_0-9][A-Za-z_0-9:<>, ]*)\"): .*" "\$1\$2" -- (__bcs_show)
end

function __bcs_variants
    set -l name (__bcs_words)[3]
    string match -qr "^[A-Za-z_0-9:<>, ]+\$" -- "$name"; or return
    __bcs_show | sed -n "/^\"\{0,1\}$name\"\{0,1\}: ENUM/,/^[^ ]/s/^  [0-9]* \"\{0,1\}\([A-Za-z_][A-Za-z_0-9]*\).*/\1/p"
end

function __bcs_parts
    set -l words (string replace -r "^~/" "$HOME/" -- (__bcs_words))
    string match -q "{*" -- "$words[2]"; or test -f "$words[2]"; or return
    test -f "$words[4]"; or return
    set -l coding (string match -r -- "^--(?:raw|base64)\$" (commandline -opc))
    set -l lines ($__bcs_program explain --quiet $coding -- "$words[2]" "$words[3]" "$words[4]" 2>/dev/null </dev/null); or return
    printf "%s\n" $lines | string replace -rf "^.* ([].:?[][]A-Za-z_0-9.:?[]*)\$" "\$1" | sort -u
end
'

[ $# = 2 ] || fail "usage: tools/packaging/completions.sh SHELL PROGRAM"
first_line=
quote_within="'\\\\''"
case $1 in
    bash) completions=$bash_completions containers=$bash_containers ;;
    zsh) completions=$zsh_completions containers=$zsh_containers first_line='#compdef bcs' ;;
    fish) completions=$fish_completions containers=$fish_containers quote_within="\\\\'" ;;
    *) fail "there are no completions for the shell $1" ;;
esac
# (A failure on the left side of a pipe would be lost.)
help=$("$here/help.sh" "$2")
[ -z "$first_line" ] || echo "$first_line"
printf '# Completions of bcs for %s, made from its own help.\n%s\n' "$1" "$containers"
printf '%s\n' "$help" | awk -F'\t' -v quote_within="$quote_within" "$read_help $completions"
