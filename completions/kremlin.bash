# Completes the words of kremlin in bash, of the installed program and of ./kremlin alike. The package bash-completion finds this file under the name
# kremlin in ~/.local/share/bash-completion/completions; without that package, ~/.bashrc may read it by `source`.
# Offered is what can stand next: the command, then its file, then its options, each once. tests/manual compares it with what --help writes.

# Offers the files that match a pattern ($1), and folders; where there are none of these, any file. $2 is what is typed, $3 what stands before it.
_kremlin_files() {
    compopt -o filenames 2>/dev/null
    mapfile -t COMPREPLY < <(compgen -f -X "!$1" -- "$2"; compgen -d -- "$2")
    ((${#COMPREPLY[@]})) || mapfile -t COMPREPLY < <(compgen -f -- "$2")
    COMPREPLY=("${COMPREPLY[@]/#/"${3-}"}")
}

# Offers the options that were not given, or the values of one.
_kremlin_options() {
    local it left=() typed=$1 options=$2 given=$3
    case " $options " in
        *" ${typed%%=*}= "*)
            case ${typed%%=*} in
                --depth) mapfile -t COMPREPLY < <(compgen -P --depth= -W "$(echo {1..32})" -- "${typed#*=}") ;;
                --workers) mapfile -t COMPREPLY < <(compgen -P --workers= -W "$(echo {1..16})" -- "${typed#*=}") ;;
                --latency) _kremlin_files '*.toml' "${typed#*=}" --latency= ;;
                --save) _kremlin_files '*' "${typed#*=}" --save= ;;
            esac
            return
            ;;
    esac
    for it in $options; do
        [[ $given == *" $it"* ]] || left+=("$it")
    done
    mapfile -t COMPREPLY < <(compgen -W "${left[*]}" -- "$typed")
    [[ ${#COMPREPLY[@]} != 1 || ${COMPREPLY[0]} != *= ]] || compopt -o nospace 2>/dev/null
}

_kremlin() {
    local i typed words=() options=''
    COMPREPLY=()
    # Words that bash parted at '=' are put together again.
    for ((i = 1; i <= COMP_CWORD; i++)); do
        if ((i > 1)) && [[ ${COMP_WORDS[i]} == = || ${COMP_WORDS[i - 1]} == = ]]; then
            words[-1]+=${COMP_WORDS[i]}
        else
            words+=("${COMP_WORDS[i]}")
        fi
    done
    typed=${words[-1]}
    case ${#words[@]}:${words[0]} in
        1:*) mapfile -t COMPREPLY < <(compgen -W 'run graph carried replay page annotate show merge check demo --help -h --version -V' -- "$typed") ;;
        2:run | 2:graph | 2:carried | 2:replay | 2:page | 2:annotate | 2:check) _kremlin_files '*.c' "$typed" ;;
        2:show | *:merge) _kremlin_files '*' "$typed" ;;
        2:*) ;;
        *:run) options='--steps= --depth= --latency= --dict --save=' ;;
        *:graph) options='--steps= --depth= --latency=' ;;
        *:carried) options='--steps= --depth= --latency= --storage' ;;
        *:replay) options='--steps= --depth= --latency= --workers= --seed=' ;;
        *:annotate) options='--steps= --depth= --latency= --strict' ;;
        *:page) options='--steps= --depth= --latency= --dict' ;;
        *:show) options='--dict --json --csv' ;;
    esac
    [[ -z $options ]] || _kremlin_options "$typed" "$options" " ${words[*]:2:${#words[@]}-3}"
    # Where bash parts words at '=', it replaces only what stands behind the last one.
    [[ $COMP_WORDBREAKS != *=* || $typed != *=* ]] || COMPREPLY=("${COMPREPLY[@]#"${typed%=*}="}")
}

complete -F _kremlin kremlin
