# Completion in Bash: source docs/foldgneiss.bash
_foldgneiss() {
    local word=${COMP_WORDS[COMP_CWORD]}
    if [ "$COMP_CWORD" -eq 1 ]; then
        mapfile -t COMPREPLY < <(compgen -W 'play dump trace debug live wave list request verify round desk found states remember move adopt audit asm work picture console build folder help' -- "$word")
    elif [ "${COMP_WORDS[1]}" = help ]; then
        mapfile -t COMPREPLY < <(compgen -W 'play dump trace debug live wave list request verify round desk found states remember move adopt audit asm work picture console build folder' -- "$word")
    elif [ "$COMP_CWORD" -eq 2 ] && [[ ${COMP_WORDS[1]} =~ ^(verify|round)$ ]]; then
        mapfile -t COMPREPLY < <(compgen -f -W '--all' -- "$word")
    else
        mapfile -t COMPREPLY < <(compgen -f -- "$word")
    fi
}
complete -o filenames -F _foldgneiss foldgneiss ./foldgneiss
