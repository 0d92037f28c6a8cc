# Completion of the program enc for bash: its commands, and the names of files as it takes them.

# the names of files that end so, without the end; and folders
_enc_names() {
    local end=$1 word=$2 name
    for name in "$word"*"$end"; do
        if [ -f "$name" ]; then COMPREPLY+=("${name%"$end"}"); fi
    done
    for name in "$word"*/; do
        if [ -d "$name" ]; then COMPREPLY+=("$name"); fi
    done
}

_enc() {
    local word=${COMP_WORDS[COMP_CWORD]} command=${COMP_WORDS[1]} at=$COMP_CWORD
    COMPREPLY=()
    if [ "$at" = 1 ]; then
        mapfile -t COMPREPLY < <(compgen -W "show list check apply write run gen compact merge" -- "$word")
        return
    fi
    case $command:$at in
        gen:4) _enc_names .dll "$word" ;;
        gen:*) ;;
        *:2) _enc_names .dll "$word" ;;
        show:3) ;;
        run:3 | write:3) _enc_names "" "$word" ;;
        run:*) ;;
        apply:3 | compact:3) _enc_names .dll "$word" ;;
        merge:3 | write:4) _enc_names .meta "$word" ;;
        *) _enc_names .meta "$word" ;;
    esac
    case ${COMPREPLY[0]-} in */) compopt -o nospace 2>/dev/null || true ;; esac
}

complete -F _enc enc ./enc
