# Completion of capd's words for bash.
_capd() {
    local word=${COMP_WORDS[COMP_CWORD]} before=${COMP_WORDS[COMP_CWORD-1]}
    if ((COMP_CWORD == 1)); then
        mapfile -t COMPREPLY < <(compgen -W 'explain grants compare lint who audit log run serve help --help --version' -- "$word")
    elif [[ ${COMP_WORDS[1]} == help ]]; then
        mapfile -t COMPREPLY < <(compgen -W 'explain grants compare lint who audit log run serve' -- "$word")
    elif [[ $before == --mds ]]; then
        mapfile -t COMPREPLY < <(compgen -W '16 18 20' -- "$word")
    elif [[ ${COMP_WORDS[1]} == compare ]]; then
        mapfile -t COMPREPLY < <(compgen -W '--more --json --mds --addr --help' -- "$word")
    elif [[ ${COMP_WORDS[1]} == log ]]; then
        mapfile -t COMPREPLY < <(compgen -W '--fs --denied --count --mds --json --help' -- "$word")
    elif [[ ${COMP_WORDS[1]} == lint ]]; then
        mapfile -t COMPREPLY < <(compgen -W '--json --mds --help' -- "$word")
    elif [[ ${COMP_WORDS[1]} == grants ]]; then
        mapfile -t COMPREPLY < <(compgen -W '--more --mds --help' -- "$word")
    elif [[ ${COMP_WORDS[1]} == run || ${COMP_WORDS[1]} == serve ]]; then
        mapfile -t COMPREPLY < <(compgen -W '--more --help' -- "$word")
    elif [[ ${COMP_WORDS[1]} != explain && ${COMP_WORDS[1]} != who && ${COMP_WORDS[1]} != audit ]]; then
        mapfile -t COMPREPLY < <(compgen -W '--help' -- "$word")
    elif [[ $before == --keyring || $before == --auth || $before == --sessions || $before == --tree ]]; then
        mapfile -t COMPREPLY < <(compgen -f -- "$word")
    elif [[ $before == --access || $before == who ]]; then
        local accesses='read write vxattr snapshot chmod chown: chgrp:'
        [[ ${COMP_WORDS[1]} == explain && " ${COMP_WORDS[*]} " == *' --mds '* ]] && accesses+=' readwrite mask:'
        mapfile -t COMPREPLY < <(compgen -W "$accesses" -- "$word")
        # The numbers stand right behind the colon.
        [[ ${COMPREPLY[*]} == *: ]] && compopt -o nospace
    elif [[ ${COMP_WORDS[1]} == audit ]]; then
        mapfile -t COMPREPLY < <(compgen -W '--auth --sessions --tree --rule --mds --more --json --fs --help' -- "$word")
    elif [[ ${COMP_WORDS[1]} == who ]]; then
        mapfile -t COMPREPLY < <(compgen -W '--auth --fs --owner --group --mode --mds --more --json --help' -- "$word")
    else
        mapfile -t COMPREPLY < <(compgen -W '--grants --keyring --auth --client --fs --uid --gid --groups --path --owner --group --mode --access --mds --addr --more --quiet --json --help' -- "$word")
    fi
}
complete -F _capd capd
