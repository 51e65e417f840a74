# Completions of adhost for bash: source this file, or copy it as `adhost` to
# ~/.local/share/bash-completion/completions.
_adhost() {
    local word=${COMP_WORDS[COMP_CWORD]} form= at=0 i
    for ((i = 1; i < COMP_CWORD; i++)); do
        if [[ ${COMP_WORDS[i]} == --explain || ${COMP_WORDS[i]} == --live || ${COMP_WORDS[i]} != --* ]]; then
            form=${COMP_WORDS[i]#--} at=$i
            break
        fi
    done
    COMPREPLY=()
    case $form:$((COMP_CWORD - at)) in
        explain:*) mapfile -t COMPREPLY < <(compgen -f -X '!*.js*' -- "$word") ;;
        :*)
            COMPREPLY=($(compgen -W "check check-lib tidy render replay audit check-audit demo --explain --help --html --live --try --version" -- "$word"))
            compopt +o plusdirs
            ;;
        check:1 | render:1 | live:1 | replay:[12] | audit:[12]) mapfile -t COMPREPLY < <(compgen -f -X '!*.json' -- "$word") ;;
        check-audit:1) mapfile -t COMPREPLY < <(compgen -f -- "$word") ;;
        check-lib:1 | tidy:1) mapfile -t COMPREPLY < <(compgen -f -X '!*.js' -- "$word") ;;
        *) compopt +o plusdirs ;;
    esac
}
complete -o filenames -o plusdirs -F _adhost adhost
