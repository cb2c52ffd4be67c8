# Completion of the command tugrokt for bash: `source docs/tugrokt.bash`. A test holds it to `tugrokt --help`.
_tugrokt() {
    local word=${COMP_WORDS[1]-} now=${COMP_WORDS[COMP_CWORD]-} before=${COMP_WORDS[COMP_CWORD - 1]-} offered
    COMPREPLY=()
    if [ "$COMP_CWORD" -eq 1 ]; then
        mapfile -t COMPREPLY < <(compgen -W 'plan fits from-partner to-partner merge line -h --help -V --version' -- "$now")
        return
    fi
    case $before in
    -j | --jobs) return ;;
    --to)
        compopt -o filenames 2>/dev/null
        mapfile -t COMPREPLY < <(compgen -d -- "$now")
        return
        ;;
    esac
    case $word in
    plan) offered='--partner --explain --chart -j --jobs --to -h --help' ;;
    fits) offered='--partner --explain -j --jobs --to -h --help' ;;
    from-partner | to-partner | merge | line) offered='-h --help' ;;
    *) return ;;
    esac
    case $now in
    -*) mapfile -t COMPREPLY < <(compgen -W "$offered" -- "$now") ;;
    *)
        compopt -o filenames 2>/dev/null
        mapfile -t COMPREPLY < <(compgen -f -- "$now")
        ;;
    esac
}
complete -F _tugrokt tugrokt
