# Completions of infer_label for bash.
_infer_label() {
    local word="${COMP_WORDS[COMP_CWORD]}" before="${COMP_WORDS[COMP_CWORD - 1]}"
    [ "$word" != = ] || word=
    [ "$before" != = ] || before="${COMP_WORDS[COMP_CWORD - 2]}"
    case "$before" in
        --color) mapfile -t COMPREPLY < <(compgen -W "auto always never" -- "$word") && return ;;
        --why) [ "${COMP_WORDS[COMP_CWORD - 1]}" != = ] || { COMPREPLY=(all); return; } ;;
        --content-type | --exclude | --front | --name | --threads) return ;;
    esac
    case "$word" in
        -*) mapfile -t COMPREPLY < <(compgen -W "-0 -b -h -r --brief --built-in --bytes --color --content-type --csv --exclude --files0-from --front --help --json --lies --list --mime --name --nosniff --null --one-file-system --progress --recursive --sniff --summary --threads --types --version --why" -- "$word") ;;
        *) mapfile -t COMPREPLY < <(compgen -f -- "$word") ;;
    esac
}
complete -o filenames -F _infer_label infer_label
