# Completion of beamtassel for bash.
_beamtassel() {
    local word=${COMP_WORDS[COMP_CWORD]} before=${COMP_WORDS[COMP_CWORD - 1]} command= options k
    for ((k = 1; k < COMP_CWORD; k++)); do
        case ${COMP_WORDS[k]} in
            replay | finalizing | two-views | text | bytes) command=${COMP_WORDS[k]}; break ;;
        esac
    done
    if [[ $before == --color ]]; then
        mapfile -t COMPREPLY < <(compgen -W 'auto always never' -- "$word")
        return
    fi
    options='--color --help --version'
    case $command in
        '') options='replay finalizing two-views text bytes --help --version' ;;
        replay) options+=' --names' ;;
        text) options+=' --sort-blocks' ;;
    esac
    if [[ $word == -* || -z $command ]]; then
        mapfile -t COMPREPLY < <(compgen -W "$options" -- "$word")
    else
        compopt -o filenames 2>/dev/null
        mapfile -t COMPREPLY < <(compgen -f -- "$word")
    fi
}
complete -F _beamtassel beamtassel
