# Completion of neon-equal for bash: source this file, or put it into the folder of bash-completion under the name neon-equal.
_neon_equal() {
    local word=${COMP_WORDS[COMP_CWORD]} before=${COMP_WORDS[COMP_CWORD - 1]}
    COMPREPLY=()
    case $before in
    --lanes) mapfile -t COMPREPLY < <(compgen -W '8 16 32 64' -- "$word") ;;
    --solver) mapfile -t COMPREPLY < <(compgen -W 'z3 cvc5 z3,cvc5 none' -- "$word") ;;
    --result) mapfile -t COMPREPLY < <(compgen -W 'v0 d0 v0-v1 v0-v2 v0-v3' -- "$word") ;;
    --registers) mapfile -t COMPREPLY < <(compgen -W "$(printf 'v%s d%s ' {0..31}{,})" -- "$word") ;;
    --function | --from | --to | --seconds | -j) ;;
    *)
        case $word in
        -*)
            mapfile -t COMPREPLY < <(compgen -W '--function --from --to --words --records --result --registers --lanes --seconds --solver --explain
                --replay --json --report --list -j --help -h --version -V' -- "$word")
            ;;
        *) mapfile -t COMPREPLY < <(compgen -f -- "$word") ;;
        esac
        ;;
    esac
}
complete -o filenames -F _neon_equal neon-equal ./neon-equal
