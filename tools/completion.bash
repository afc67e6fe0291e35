# Completion of the words of ggvax and of ggdesk for bash: source this file.

_ggvax() {
    local word=${COMP_WORDS[COMP_CWORD]} at=$COMP_CWORD first=1 ending
    [ "${COMP_WORDS[1]}" = --try ] && first=2
    if [ "$at" -eq 1 ]; then
        COMPREPLY=($(compgen -W 'check compile run meaning load image text check32 run32 --try --help --version' -- "$word"))
        return
    fi
    if [ "$at" -eq "$first" ]; then
        COMPREPLY=($(compgen -W 'check compile run meaning load image text check32 run32' -- "$word"))
        return
    fi
    case ${COMP_WORDS[first]}$((at - first)) in
    check1 | compile1 | load1 | check321) ending=gg ;;
    compile2 | meaning1) ending=c ;;
    run1 | image1) ending=s ;;
    run321) ending=l32 ;;
    text1) ending=img ;;
    *) return ;;
    esac
    compopt -o filenames
    COMPREPLY=($(compgen -f -X "!*.$ending" -- "$word") $(compgen -d -- "$word"))
}

complete -F _ggvax ggvax ./ggvax

_ggdesk() {
    local word=${COMP_WORDS[COMP_CWORD]} ending endings
    if [ "$COMP_CWORD" -eq 1 ]; then
        COMPREPLY=($(compgen -W 'why trees rules sets dot parse code --help' -- "$word"))
        return
    fi
    case ${COMP_WORDS[1]}$((COMP_CWORD - 1)) in
    why1) endings='c gg s img' ;;
    rules1 | sets1 | dot1 | parse1 | code1) endings=gg ;;
    trees1 | rules2 | code2) endings=c ;;
    --help1) COMPREPLY=($(compgen -W 'why trees rules sets dot parse code' -- "$word")) && return ;;
    *) return ;;
    esac
    compopt -o filenames
    COMPREPLY=($(compgen -d -- "$word"))
    for ending in $endings; do
        COMPREPLY+=($(compgen -f -X "!*.$ending" -- "$word"))
    done
}

complete -F _ggdesk ggdesk
