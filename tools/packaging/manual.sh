#!/bin/sh
# tools/packaging/manual.sh PROGRAM: prints the program's manual, bcs.1, for `man`. It consists of what the program's own
# help says, so that the two can't differ.
set -eu
unset CDPATH
here=$(cd "$(dirname "$0")" && pwd)

# (A failure on the left side of a pipe would be lost.)
help=$("$here/help.sh" "$1")
version=$("$1" --version)
printf '%s\n' "$help" | awk -F'\t' -v version="${version%%,*}" '
    # Escapes characters that mean something to roff, or that it would print as others.
    function roff(text) {
        gsub(/\\/, "\\e", text); gsub(/-/, "\\-", text); gsub(/\047/, "\\(aq", text); gsub(/`/, "\\(ga", text)
        gsub(/\^/, "\\(ha", text); gsub(/~/, "\\(ti", text)
        return text ~ /^\./ ? "\\&" text : text
    }
    function heading(title) { if (title != last) print ".SH " title; last = title }
    # What describes a command comes under its name, and what describes the program under headings of its own.
    function place(title) { if ($2 == "") heading(title); else if (kind != $1 && $1 != "option") print ".PP"; kind = $1 }
    function entry(name, text) { print ".TP\n\\fB" roff(name) "\\fR\n" roff(text) }

    $1 == "about" && $2 == "" { print ".TH BCS 1 \"\" \"" version "\" \"User Commands\""; heading("NAME"); print "bcs \\- " roff($3); next }
    $1 == "about" { heading("COMMANDS"); print ".SS " $2 "\n" roff($3); kind = "" }
    $1 == "usage" { place("SYNOPSIS"); print "\\fB" roff($3) "\\fR" }
    $1 == "command" { place("DESCRIPTION"); entry($3, $4) }
    $1 == "argument" { entry($3, $4) }
    $1 == "option" { place("OPTIONS"); entry($3, $4) }
    $1 == "input" { place("INPUT"); print roff($3) }
    $1 == "example" { place("EXAMPLES"); print ".EX\n" roff($3) "\n.EE" }
    $1 == "status" && match($3, /^[0-9]  /) { place("EXIT STATUS"); entry(substr($3, 1, 1), substr($3, 4)); next }
    $1 == "status" { place("EXIT STATUS"); print "Exit status: " roff($3) }'
