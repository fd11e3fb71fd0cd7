# bash completion for dsa_trace: its options, then what bash offers for the program and its arguments.
_dsa_trace()
{
    local word=${COMP_WORDS[COMP_CWORD]} before=${COMP_WORDS[COMP_CWORD-1]} at
    COMPREPLY=()
    for ((at = 1; at < COMP_CWORD; at++)); do
        case ${COMP_WORDS[at]} in
            --out | --seed | --seeds | --order | --delay | --retry | --fault | --watch | --queue | --stacks) ((at++)) ;;
            --accept | --await | --deny | --junit | --report | --timeout) ((at++)) ;;
            --batch | --batches | --fence | --greatest-batch | --greatest-transfer | --lone) ((at++)) ;;
            --) ((at++)); break ;;
            -*) ;;
            *) break ;;
        esac
    done
    if ((at < COMP_CWORD)) && declare -F _command_offset > /dev/null; then
        _command_offset "$at"
        return
    fi
    case $before in
        --order) COMPREPLY=($(compgen -W "fifo members data all" -- "$word")) ;;
        --queue) COMPREPLY=($(compgen -W "dedicated,16,name shared,16,name" -- "$word")) ;;
        --out | --report) COMPREPLY=($(compgen -d -- "$word")) ;;
        --accept | --junit) COMPREPLY=($(compgen -f -- "$word")) ;;
        --await) COMPREPLY=($(compgen -W "writes signals batches" -- "$word")) ;;
        --deny) COMPREPLY=($(compgen -W "needless guarding signalling unseen stale" -- "$word")) ;;
        --seed | --seeds | --delay | --retry | --fault | --timeout | --watch | --stacks) ;;
        --batch | --batches | --fence | --greatest-batch | --greatest-transfer | --lone) ;;
        *)
            if [[ $word == -* ]]; then
                COMPREPLY=($(compgen -W "--accept --audit --await --batch --batches --cpuid --delay --deny --fault
                    --fence --greatest-batch --greatest-transfer --help --json --junit --lone --no-namespace --no-wait
                    --no-watch --order --out --queue --report --resident --retry --seed --seeds --signals --stacks
                    --timeout --verbose --version --watch --write-accept" -- "$word"))
            else
                COMPREPLY=($(compgen -c -- "$word"))
            fi
            ;;
    esac
}
complete -o default -F _dsa_trace dsa_trace
