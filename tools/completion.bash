# Completes the words of nfp in bash: commands, tools, options, the ways of --merge, and files, that of --graph too. tools/install puts it where
# bash-completion finds it; without that: source tools/completion.bash

_nfp() {
    local word=$2 options=' --burst --graph --merge --mergers --sync ' due files=yes
    COMPREPLY=()
    if [[ $COMP_CWORD -eq 1 ]]; then
        local first='plan run why flows demo help explain report-to-csv report-to-html plan-to-dot plan-to-graph chains-apart send-flows'
        [[ $word != -* ]] || first='--help --version'
        COMPREPLY=($(compgen -W "$first" -- "$word"))
        return
    fi
    case ${COMP_WORDS[1]} in
        plan) due=1 options=' --graph ' ;;
        run) due=4 ;;
        why) due=3 options=' --record ' ;;
        flows) due=2 options=' --burst --sync --workers ' ;;
        demo) due=2 files= options=' --burst --merge --mergers ' ;;
        explain | report-to-csv | report-to-html | plan-to-dot | plan-to-graph | chains-apart | send-flows)
            compopt -o default
            return
            ;;
        *) return ;;
    esac

    # What is before the word. Bash takes --merge=inbox for three words, unless = was removed from COMP_WORDBREAKS.
    local place each option= named= names=0
    for ((place = 2; place < COMP_CWORD; place++)); do
        each=${COMP_WORDS[place]}
        if [[ $each == '=' ]]; then
            continue
        elif [[ -n $option ]]; then
            option=
        elif [[ -n $named || $each != -* ]]; then
            names=$((names + 1))
        elif [[ $each == -- ]]; then
            named=yes
        else
            options=${options/" ${each%%=*} "/ }
            [[ $each == *=* || $each == --sync ]] || option=$each
        fi
    done

    if [[ $option == --graph ]]; then
        compopt -o default
    elif [[ -n $option ]]; then
        [[ $option != --merge ]] || COMPREPLY=($(compgen -W 'inbox board' -- "${word#=}"))
    elif [[ -z $named && $word == --merge=* ]]; then
        COMPREPLY=($(compgen -W '--merge=inbox --merge=board' -- "$word"))
    elif [[ -z $named && $word == --graph=* ]]; then
        mapfile -t COMPREPLY < <(compgen -f -P --graph= -- "${word#--graph=}")
    elif [[ -z $named && ($word == -* || $names -ge $due) ]]; then
        COMPREPLY=($(compgen -W "$options" -- "$word"))
    elif [[ -n $files && $names -lt $due ]]; then
        # Readline's own way with the names of files, quotes and blanks among them.
        compopt -o default
    fi
}

complete -F _nfp nfp
