# bash completion for tokentree, made by bench/packaging.sh --write

# The ids of the nodes that have sockets in a folder, or that a network file names.
_tokentree_ids() {
    local path=${1/#\~/$HOME} name last
    if [ -d "$path" ]; then
        for name in "$path"/desk-*.sock; do
            name=${name##*/desk-}
            [[ ${name%.sock} == *[!0-9]* ]] || echo "${name%.sock}"
        done
    elif [ -f "$path" ]; then
        last=$(sed -n 's/^[[:space:]]*nodes[[:space:]]*=[[:space:]]*\([0-9]\{1,2\}\).*/\1/p' "$path" | head -n 1)
        [ -z "$last" ] || seq 0 $((last - 1))
    fi
}

# What an argument of this kind may be, once each.
_tokentree_words() {
    case $1 in
    FILE) compgen -d -- "$current"; compgen -f -X '!*.toml' -- "$current" ;;
    DIR) compgen -d -- "$current" ;;
    EVENTS | PATH) compgen -f -- "$current" ;;
    ID) compgen -W "$(_tokentree_ids "${given[0]}")" -- "$current" ;;
    COMMAND) compgen -c -- "$current"; compgen -f -- "$current" ;;
    esac | sort -u
}

_tokentree() {
    local current=${COMP_WORDS[COMP_CWORD]} flags='' valued='' places='' word at is_past=no
    local -a given=() kinds=()
    COMPREPLY=()
    if [ "$COMP_CWORD" -eq 1 ]; then
        mapfile -t COMPREPLY < <(compgen -W 'bound simulate lock status scramble cut junk node up stop network schedule measure worst draw gather threads help --help --version' -- "$current")
        return
    fi
    case ${COMP_WORDS[1]} in
    bound) flags='--sharp --json --time --turn --delay --loan --repeat --help' valued='--turn --delay --loan --repeat' places='FILE' ;;
    simulate) flags='--layers --help' valued='' places='FILE EVENTS' ;;
    lock) flags='--timeout --no-wait --lost-status --verbose --keep --wait-children --help' valued='--timeout --lost-status' places='DIR ID COMMAND' ;;
    status) flags='--json --check --premises --links --watch --every --help' valued='--check --every' places='DIR ID' ;;
    scramble) flags='--help' valued='' places='FILE ID PATH SEED' ;;
    cut) flags='--help' valued='' places='PATH LENGTH' ;;
    junk) flags='--help' valued='' places='SEED LINES' ;;
    node) flags='--hold --repeat --turn --group-locks --log --record --record-size --child --help' valued='--hold --repeat --turn --log --record-size' places='FILE ID DIR' ;;
    up) flags='--hold --repeat --turn --group-locks --log --record --record-size --help' valued='--hold --repeat --turn --log --record-size' places='FILE DIR' ;;
    stop) flags='--timeout --help' valued='--timeout' places='DIR ID' ;;
    network) flags='--root --capacity --lease --edges --seed --help' valued='--root --capacity --lease --edges --seed' places='KIND N M' ;;
    schedule) flags='--scramble --rounds --random --seed --loss --clients --give-back --help' valued='--scramble --rounds --random --seed --loss --give-back' places='FILE' ;;
    measure) flags='--runs --seed --rounds --random --schedule --share --table --csv --plot --json --help' valued='--runs --seed --schedule --share --plot' places='FILE' ;;
    worst) flags='--searches --minutes --steps --seed --events --help' valued='--searches --minutes --steps --seed --events' places='FILE' ;;
    draw) flags='--columns --from --to --layers --film --page --seconds --help' valued='--columns --from --to --seconds' places='FILE EVENTS' ;;
    gather) flags='--network --from --last --help' valued='--network --from --last' places='DIR' ;;
    threads) flags='--events --help' valued='--events' places='FILE TURNS' ;;
    help)
        [ "$COMP_CWORD" -gt 2 ] || mapfile -t COMPREPLY < <(compgen -W 'bound simulate lock status scramble cut junk node up stop network schedule measure worst draw gather threads' -- "$current")
        return
        ;;
    esac
    read -ra kinds <<<"$places"
    for ((at = 2; at < COMP_CWORD; at++)); do
        word=${COMP_WORDS[at]}
        if [ $is_past = no ] && [ "$word" = -- ]; then
            is_past=yes
        elif [ $is_past = no ] && [[ $word == -* ]]; then
            # A value is the word after its flag, perhaps the one being typed.
            if [[ " $valued " == *" $word "* ]] && ((++at == COMP_CWORD)); then return; fi
        else
            given+=("$word")
        fi
        # What follows the first word of a command belongs to the command.
        [ "${kinds[${#given[@]}]}" != COMMAND ] || [ "${#given[@]}" -lt "${#kinds[@]}" ] || is_past=yes
    done
    at=${#given[@]}
    if ((at >= ${#kinds[@]})); then
        case ${kinds[-1]} in
        COMMAND) mapfile -t COMPREPLY < <(compgen -f -- "$current" | sort -u) ;;
        ID) mapfile -t COMPREPLY < <(_tokentree_words ID) ;;
        esac
        [[ $is_past = no && $current == -* && ${kinds[-1]} != COMMAND ]] || return
    fi
    if [ $is_past = no ] && [[ $current == -* ]]; then
        mapfile -t COMPREPLY < <(compgen -W "$flags" -- "$current")
    elif ((at < ${#kinds[@]})); then
        mapfile -t COMPREPLY < <(_tokentree_words "${kinds[at]}")
    fi
}
complete -o filenames -F _tokentree tokentree
