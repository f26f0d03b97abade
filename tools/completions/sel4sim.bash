# Made by tools/pages.py from what `sel4sim --help` and `sel4sim COMMAND --help` print.
_sel4sim() {
    local word=${COMP_WORDS[COMP_CWORD]} command= at
    for ((at = 1; at < COMP_CWORD; at++)); do
        case ${COMP_WORDS[at]} in -*) ;; *) command=${COMP_WORDS[at]}; break ;; esac
    done
    COMPREPLY=()
    case ${COMP_WORDS[COMP_CWORD-1]} in
        --of) COMPREPLY=($(compgen -W '' -- "$word")); return ;;
        --first) COMPREPLY=($(compgen -W '' -- "$word")); return ;;
        --call) COMPREPLY=($(compgen -W '' -- "$word")); return ;;
        --after) COMPREPLY=($(compgen -W '' -- "$word")); return ;;
        --slot) COMPREPLY=($(compgen -W '' -- "$word")); return ;;
        --without) COMPREPLY=($(compgen -W '' -- "$word")); return ;;
        --messages) COMPREPLY=($(compgen -W '' -- "$word")); return ;;
        --by) COMPREPLY=($(compgen -W '' -- "$word")); return ;;
        --badge) COMPREPLY=($(compgen -W '' -- "$word")); return ;;
        --states) COMPREPLY=($(compgen -W '' -- "$word")); return ;;
        --how) COMPREPLY=($(compgen -W '' -- "$word")); return ;;
        --witness) COMPREPLY=($(compgen -W '' -- "$word")); return ;;
        --profile) COMPREPLY=($(compgen -W '' -- "$word")); return ;;
        --threads) COMPREPLY=($(compgen -W '' -- "$word")); return ;;
        --endpoints) COMPREPLY=($(compgen -W '' -- "$word")); return ;;
        --untyped) COMPREPLY=($(compgen -W '' -- "$word")); return ;;
        --shrink) COMPREPLY=($(compgen -W '' -- "$word")); return ;;
        --rights) COMPREPLY=($(compgen -W '' -- "$word")); return ;;
    esac
    case $command in
        '')
            COMPREPLY=($(compgen -W 'check marks record trace migrate threads why audit ever never draft how policy explore tree new import help -h --help -V --version' -- "$word"))
            [[ $word == -* ]] || mapfile -t -O "${#COMPREPLY[@]}" COMPREPLY < <(compgen -f -- "$word")
            ;;
        check)
            COMPREPLY=($(compgen -W '--strict --quiet --names -h --help' -- "$word"))
            [[ $word == -* ]] || mapfile -t -O "${#COMPREPLY[@]}" COMPREPLY < <(compgen -f -- "$word")
            ;;
        marks)
            COMPREPLY=($(compgen -W '--of -h --help' -- "$word"))
            [[ $word == -* ]] || mapfile -t -O "${#COMPREPLY[@]}" COMPREPLY < <(compgen -f -- "$word")
            ;;
        record)
            COMPREPLY=($(compgen -W '-h --help' -- "$word"))
            [[ $word == -* ]] || mapfile -t -O "${#COMPREPLY[@]}" COMPREPLY < <(compgen -f -- "$word")
            ;;
        trace)
            COMPREPLY=($(compgen -W '--ways --names -h --help' -- "$word"))
            [[ $word == -* ]] || mapfile -t -O "${#COMPREPLY[@]}" COMPREPLY < <(compgen -f -- "$word")
            ;;
        migrate)
            COMPREPLY=($(compgen -W '-h --help' -- "$word"))
            [[ $word == -* ]] || mapfile -t -O "${#COMPREPLY[@]}" COMPREPLY < <(compgen -f -- "$word")
            ;;
        threads)
            COMPREPLY=($(compgen -W '--first --names -h --help' -- "$word"))
            [[ $word == -* ]] || mapfile -t -O "${#COMPREPLY[@]}" COMPREPLY < <(compgen -f -- "$word")
            ;;
        why)
            COMPREPLY=($(compgen -W '--call --names -h --help' -- "$word"))
            [[ $word == -* ]] || mapfile -t -O "${#COMPREPLY[@]}" COMPREPLY < <(compgen -f -- "$word")
            ;;
        audit)
            COMPREPLY=($(compgen -W '--after --slot --without --names -h --help' -- "$word"))
            [[ $word == -* ]] || mapfile -t -O "${#COMPREPLY[@]}" COMPREPLY < <(compgen -f -- "$word")
            ;;
        ever)
            COMPREPLY=($(compgen -W '--after --without --messages --names -h --help' -- "$word"))
            [[ $word == -* ]] || mapfile -t -O "${#COMPREPLY[@]}" COMPREPLY < <(compgen -f -- "$word")
            ;;
        never)
            COMPREPLY=($(compgen -W '--after --without --messages --by --names -h --help' -- "$word"))
            [[ $word == -* ]] || mapfile -t -O "${#COMPREPLY[@]}" COMPREPLY < <(compgen -f -- "$word")
            ;;
        draft)
            COMPREPLY=($(compgen -W '--after --without --messages -h --help' -- "$word"))
            [[ $word == -* ]] || mapfile -t -O "${#COMPREPLY[@]}" COMPREPLY < <(compgen -f -- "$word")
            ;;
        how)
            COMPREPLY=($(compgen -W '--after --without --by --message --hold --loss --badge --states -h --help' -- "$word"))
            [[ $word == -* ]] || mapfile -t -O "${#COMPREPLY[@]}" COMPREPLY < <(compgen -f -- "$word")
            ;;
        policy)
            COMPREPLY=($(compgen -W '--after --listing --how --states -h --help' -- "$word"))
            [[ $word == -* ]] || mapfile -t -O "${#COMPREPLY[@]}" COMPREPLY < <(compgen -f -- "$word")
            ;;
        explore)
            COMPREPLY=($(compgen -W '--first --states --witness --ends --names -h --help' -- "$word"))
            [[ $word == -* ]] || mapfile -t -O "${#COMPREPLY[@]}" COMPREPLY < <(compgen -f -- "$word")
            ;;
        tree)
            COMPREPLY=($(compgen -W '--after --dot --names -h --help' -- "$word"))
            [[ $word == -* ]] || mapfile -t -O "${#COMPREPLY[@]}" COMPREPLY < <(compgen -f -- "$word")
            ;;
        new)
            COMPREPLY=($(compgen -W '--profile --threads --endpoints --untyped -h --help' -- "$word"))
            ;;
        import)
            COMPREPLY=($(compgen -W '--shrink --listing --cdl --flows --plain --rights --strict -h --help' -- "$word"))
            [[ $word == -* ]] || mapfile -t -O "${#COMPREPLY[@]}" COMPREPLY < <(compgen -f -- "$word")
            ;;
        help)
            COMPREPLY=($(compgen -W 'check marks record trace migrate threads why audit ever never draft how policy explore tree new import help' -- "$word"))
            ;;
    esac
}
complete -o filenames -F _sel4sim sel4sim
