# Completions of bash for bson.
_bson() {
    local word=${COMP_WORDS[COMP_CWORD]} before=${COMP_WORDS[COMP_CWORD - 1]} it mode='' own='' options='--sort-keys --strict --v1 --no-double-keys --array --indent --diagnostics --output --help --version'
    local modes='canonical relaxed show check hash same'
    for it in "${COMP_WORDS[@]:1:COMP_CWORD-1}"; do
        case $it in
            lines) options=${options/--array --indent/--keep-going --jobs} ;;
            decode) own='--sort-keys --strict ' options='--sort-keys --strict --no-double-keys --keep-going --jobs --diagnostics --output --help --version' ;;
            encode) modes='' mode=$it options='--sort-keys --strict --v1 --no-double-keys --array --keep-going --jobs --diagnostics --output --help --version' ;;
            show) mode=$it options=${options/ --indent/} options=${options#"$own"} ;;
            check) mode=$it options=${options#"$own"} options=${options/--sort-keys /} options=${options/ --indent/} options=${options/ --output/} options=${options/ --v1 --no-double-keys/ --v1 --no-double-keys --canonical} ;;
            hash) mode=$it options=${options/--sort-keys /} options=${options/ --indent/} ;;
            same) mode=$it options=${options/--sort-keys /} options=${options/ --indent/} options=${options/ --keep-going --jobs/} options=${options/ --diagnostics --output/ --output} options=${options/ --output/ --unordered} ;;
            canonical | relaxed) mode=$it ;;
        esac
    done
    [[ $options == *--keep-going* || -n $mode ]] || modes+=' lines decode encode'
    compopt -o filenames 2>/dev/null
    if [[ $before == --jobs ]]; then
        COMPREPLY=($(compgen -W "$(nproc)" -- "$word"))
    elif [[ $before == --indent ]]; then
        COMPREPLY=($(compgen -W '1 2 4 8' -- "$word"))
    elif [[ $before == --diagnostics ]]; then
        COMPREPLY=($(compgen -W 'text json' -- "$word"))
    elif [[ $word == -* ]]; then
        COMPREPLY=($(compgen -W "$options" -- "$word"))
    elif [[ -n $mode || $before == -o || $before == --output ]]; then
        mapfile -t COMPREPLY < <(compgen -f -- "$word")
    elif [[ -n $own ]]; then
        mapfile -t COMPREPLY < <(compgen -W "$modes" -- "$word"; compgen -f -- "$word")
    else
        COMPREPLY=($(compgen -W "$modes" -- "$word"))
    fi
}
complete -F _bson bson
