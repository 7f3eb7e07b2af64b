#!/usr/bin/env bash
# Compares the words that bash and zsh complete after qpk with those of the manual page: each command, and the options of
# each. A shell that is not there is left out, and a line says so. The last line is 'N passed, M failed'.
set -uo pipefail
cd "$(dirname "$0")/.." || exit 1
script=tool/tests/completions.sh
. ../tests/counted
room=$(mktemp -d) || exit 1
trap 'rm -rf "$room"' EXIT

# Prints the commands of the manual page, and the options of each, a line each: "decode", "decode --hex".
list_manual() {
    awk '{ while (sub(/\\$/, "")) { getline rest; $0 = $0 rest } } # a line that goes on
        $1 == ".It" && $2 == "Fl" { print "-" $3 }
        $1 == ".It" && $2 == "Cm" {
            print $3
            for (at = 4; at < NF; at++) if ($at == "Fl") print $3 " -" $(at + 1)
        }' qpk.1 | sort -u
}

# The words that bash completes after qpk and these words.
ask_bash() {
    # shellcheck disable=SC2016 # the dollars are of the other shell
    bash --norc -c '. completions/qpk.bash
        COMP_WORDS=(qpk "$@" "") COMP_CWORD=$(($# + 1))
        _qpk
        printf "%s\n" "${COMPREPLY[@]}"' bash "$@"
}

# The same of zsh, whose _describe is passed the name of an array of words with their texts.
ask_zsh() {
    # shellcheck disable=SC2016 # the dollars are of the other shell
    zsh -fc 'fpath=(completions)
        autoload -Uz _qpk
        _describe() { local name=${@[-1]}; print -l -- ${${(P)name}%%:*} }
        _files() { [[ $words[2] == (show|check) ]] || print no file is due }
        words=(qpk "$@" "") CURRENT=$(($# + 2))
        _qpk' zsh "$@"
}

# Compares what a shell completes, asked by a function, with the manual page. The values of an option are left out.
compare() {
    local command option
    for command in $("$1"); do
        echo "$command"
        for option in $("$1" "$command"); do echo "$command ${option%%=*}"; done
    done | sort -u >"$room/completed"
    list_manual | diff - "$room/completed" && [ -s "$room/completed" ]
}

for shell in bash zsh; do
    if command -v "$shell" >/dev/null; then
        try "the completion of $shell is that of qpk.1" compare "ask_$shell"
    else
        not_shown "the completion of qpk in $shell" "without $shell"
    fi
done
tell_count
