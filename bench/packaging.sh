#!/bin/sh
# Compares the files for packagers (the man page, the completions and OPERATING.md) with the command line's own list of
# commands and flags. Then has each shell that is there complete each command and flag without its last letter. Status 1
# if a file lacks a command or a flag, or has one that does not exist, or if a shell does not complete one.
#
#   bench/packaging.sh             compares, and tries the shells
#   bench/packaging.sh --write     writes the completions again first; the other files are written by hand
#
# The program is ./tokentree, or what TOKENTREE names.
set -eu
cd "$(dirname "$0")/.."
program=${TOKENTREE:-./tokentree}
found=0
made=$(mktemp -d)
trap 'rm -rf "$made"' EXIT

fault() {
    echo "packaging: $1" >&2
    found=1
}

# The commands with what they do, a line each: NAME, a tab, the text.
"$program" --help | awk '
    /^Commands:/ { on = 1; next }
    on && /^$/ { exit }
    on && /^  [a-z]/ { name = $1; sub(/^ +[a-z]+ +/, ""); if (name != "help") print name "\t" $0 }
' >"$made/commands"
[ -s "$made/commands" ] || { fault "$program --help shows no commands"; exit 1; }

# The flags of a command with what they do, a line each: --NAME, a tab, yes or no for a value, a tab, the text.
flags() {
    "$program" help "$1" | awk '
        /^Options:/ { on = 1; next }
        on && /^$/ { exit }
        on && match($0, /--[a-z][a-z-]*/) {
            name = substr($0, RSTART, RLENGTH)
            rest = substr($0, RSTART + RLENGTH)
            value = match(rest, /^ <[A-Z]+>/) ? "yes" : "no"
            sub(/^ <[A-Z]+>/, "", rest)
            sub(/^ +/, "", rest)
            if (name != "--help") print name "\t" value "\t" rest
        }
    '
}

# The arguments of a command, in order: FILE, DIR and so on, on one line.
places() {
    "$program" help "$1" | awk '
        /^Arguments:/ { on = 1; next }
        on && /^$/ { exit }
        on && match($0, /^  [<[][A-Z]+[]>]/) { printf "%s ", substr($0, RSTART + 3, RLENGTH - 4) }
    ' | sed 's/ $//'
}

while IFS='	' read -r name _; do
    flags "$name" >"$made/flags-$name"
    places "$name" >"$made/places-$name"
done <"$made/commands"
names=$(cut -f1 "$made/commands" | tr '\n' ' ')
names=${names% }

# The flags of a command that take a value.
valued() { awk -F '\t' '$2 == "yes" { printf "%s ", $1 }' "$made/flags-$1" | sed 's/ $//'; }

bash_file() {
    echo "# bash completion for tokentree, made by bench/packaging.sh --write"
    cat <<'END'

# The ids of the nodes that have sockets in a folder, or that a network file names.
_tokentree_ids() {
    local path=${1/#\~/$HOME} name last
    if [ -d "$path" ]; then
        for name in "$path"/desk-*.sock; do
            name=${name##*/desk-}
            [[ ${name%.sock} == *[!0-9]* ]] || echo "${name%.sock}"
        done
    elif [ -f "$path" ]; then
        last=$(sed -n 's/^[[:space:]]*nodes[[:space:]]*=[[:space:]]*\([0-9]\{1,2\}\).*/\1/p' "$path" | head -n 1)
        [ -z "$last" ] || seq 0 $((last - 1))
    fi
}

# What an argument of this kind may be, once each.
_tokentree_words() {
    case $1 in
    FILE) compgen -d -- "$current"; compgen -f -X '!*.toml' -- "$current" ;;
    DIR) compgen -d -- "$current" ;;
    EVENTS | PATH) compgen -f -- "$current" ;;
    ID) compgen -W "$(_tokentree_ids "${given[0]}")" -- "$current" ;;
    COMMAND) compgen -c -- "$current"; compgen -f -- "$current" ;;
    esac | sort -u
}

_tokentree() {
    local current=${COMP_WORDS[COMP_CWORD]} flags='' valued='' places='' word at is_past=no
    local -a given=() kinds=()
    COMPREPLY=()
    if [ "$COMP_CWORD" -eq 1 ]; then
END
    echo "        mapfile -t COMPREPLY < <(compgen -W '$names help --help --version' -- \"\$current\")"
    cat <<'END'
        return
    fi
    case ${COMP_WORDS[1]} in
END
    while IFS='	' read -r name _; do
        printf "    %s) flags='%s--help' valued='%s' places='%s' ;;\n" "$name" \
            "$(cut -f1 "$made/flags-$name" | tr '\n' ' ')" "$(valued "$name")" "$(cat "$made/places-$name")"
    done <"$made/commands"
    echo "    help)"
    echo "        [ \"\$COMP_CWORD\" -gt 2 ] || mapfile -t COMPREPLY < <(compgen -W '$names' -- \"\$current\")"
    cat <<'END'
        return
        ;;
    esac
    read -ra kinds <<<"$places"
    for ((at = 2; at < COMP_CWORD; at++)); do
        word=${COMP_WORDS[at]}
        if [ $is_past = no ] && [ "$word" = -- ]; then
            is_past=yes
        elif [ $is_past = no ] && [[ $word == -* ]]; then
            # A value is the word after its flag, perhaps the one being typed.
            if [[ " $valued " == *" $word "* ]] && ((++at == COMP_CWORD)); then return; fi
        else
            given+=("$word")
        fi
        # What follows the first word of a command belongs to the command.
        [ "${kinds[${#given[@]}]}" != COMMAND ] || [ "${#given[@]}" -lt "${#kinds[@]}" ] || is_past=yes
    done
    at=${#given[@]}
    if ((at >= ${#kinds[@]})); then
        case ${kinds[-1]} in
        COMMAND) mapfile -t COMPREPLY < <(compgen -f -- "$current" | sort -u) ;;
        ID) mapfile -t COMPREPLY < <(_tokentree_words ID) ;;
        esac
        [[ $is_past = no && $current == -* && ${kinds[-1]} != COMMAND ]] || return
    fi
    if [ $is_past = no ] && [[ $current == -* ]]; then
        mapfile -t COMPREPLY < <(compgen -W "$flags" -- "$current")
    elif ((at < ${#kinds[@]})); then
        mapfile -t COMPREPLY < <(_tokentree_words "${kinds[at]}")
    fi
}
complete -o filenames -F _tokentree tokentree
END
}

# A text within single quotes, and one within brackets within single quotes.
quoted() { printf '%s' "$1" | sed "s/'/'\\\\''/g"; }
bracketed() { quoted "$1" | sed 's/[]:[]/\\&/g'; }

zsh_file() {
    echo "#compdef tokentree"
    echo "# zsh completion for tokentree, made by bench/packaging.sh --write"
    echo "local -a commands"
    echo "commands=("
    while IFS='	' read -r name text; do echo "    '$name:$(quoted "$text")'"; done <"$made/commands"
    echo "    'help:Shows the help of a command'"
    echo ")"
    cat <<'END'
# The ids of the nodes that have sockets in a folder.
_tokentree_ids() {
    local -a ids
    ids=( ${~words[2]}/desk-<0-65535>.sock(N:t) )
    ids=( ${${ids#desk-}%.sock} )
    (( $#ids )) && compadd -- $ids
}
END
    echo "if (( CURRENT == 2 )); then"
    echo "    _describe command commands"
    echo "    _arguments '--help[Print help]' '--version[Print version]'"
    echo "    return"
    echo "fi"
    # shellcheck disable=SC2016
    echo 'local command=$words[2]'
    echo 'shift words'
    echo '(( CURRENT-- ))'
    # shellcheck disable=SC2016
    echo 'case $command in'
    while IFS='	' read -r name _; do
        echo "$name)"
        printf '    _arguments -S '
        while IFS='	' read -r flag value text; do
            if [ "$value" = yes ]; then more=':value:'; else more=; fi
            printf "'%s[%s]%s' " "$flag" "$(bracketed "$text")" "$more"
        done <"$made/flags-$name"
        printf "'--help[Print help]'"
        # shellcheck disable=SC2013
        for place in $(cat "$made/places-$name"); do
            case $place in
            FILE) printf " ':FILE:_files -g \"*.toml\"'" ;;
            DIR) printf " ':DIR:_files -/'" ;;
            ID)
                if [ "$name" = status ] || [ "$name" = stop ]; then printf " '*"; else printf " '"; fi
                printf ":ID:_tokentree_ids'"
                ;;
            EVENTS | PATH) printf " ':%s:_files'" "$place" ;;
            COMMAND) printf " '*::COMMAND:_normal'" ;;
            KIND) printf " ':KIND:(line ring star complete grid tree random)'" ;;
            *) printf " ':%s:'" "$place" ;;
            esac
        done
        echo
        echo "    ;;"
    done <"$made/commands"
    echo "help) _describe command commands ;;"
    echo "esac"
}

fish_file() {
    echo "# fish completion for tokentree, made by bench/packaging.sh --write"
    echo "complete -c tokentree -n __fish_use_subcommand -l help -d 'Print help'"
    echo "complete -c tokentree -n __fish_use_subcommand -l version -d 'Print version'"
    echo "complete -c tokentree -n __fish_use_subcommand -f -a help -d 'Shows the help of a command'"
    echo "complete -c tokentree -n '__fish_seen_subcommand_from help' -f -a '$names'"
    cat <<'END'
# Completes the command after `--`, whose flags are its own.
function __tokentree_command
    set -l tokens (commandline -opc)
    set -l at (contains -i -- -- $tokens); or return
    set -e tokens[1..$at]
    complete -C (string join ' ' -- $tokens (commandline -ct))
end
complete -c tokentree -n '__fish_seen_subcommand_from lock; and contains -- -- (commandline -opc)' -f -a '(__tokentree_command)'
END
    while IFS='	' read -r name text; do
        echo "complete -c tokentree -n __fish_use_subcommand -f -a $name -d '$(quoted "$text")'"
        while IFS='	' read -r flag value text; do
            if [ "$value" = yes ]; then more=' -x'; else more=; fi
            seen="__fish_seen_subcommand_from $name; and not contains -- -- (commandline -opc)"
            echo "complete -c tokentree -n '$seen' -l ${flag#--}$more -d '$(quoted "$text")'"
        done <"$made/flags-$name"
    done <"$made/commands"
}

# Checks that a file of completions is what the list makes.
compare() {
    if [ "$write" = yes ]; then
        cp "$made/$2" "$1"
    elif ! cmp -s "$made/$2" "$1"; then
        fault "$1 is not as bench/packaging.sh --write makes it"
    fi
}

write=no
[ "${1:-}" != --write ] || write=yes
bash_file >"$made/bash"
zsh_file >"$made/zsh"
fish_file >"$made/fish"
compare packaging/completions/tokentree.bash bash
compare packaging/completions/_tokentree zsh
compare packaging/completions/tokentree.fish fish

# The section of a command in the man page, from its heading to the next one.
section() {
    awk -v heading="$1" '/^\.S[SH] / { on = ($2 == heading) } on' docs/tokentree.1 | sed 's/\\-/-/g'
}

while IFS='	' read -r name _; do
    section "$name" >"$made/section"
    [ -s "$made/section" ] || fault "docs/tokentree.1 has no section on $name"
    cut -f1 "$made/flags-$name" | while read -r flag; do
        grep -q -e "$flag" "$made/section" || echo "$flag"
    done >"$made/lacks"
    while read -r flag; do fault "docs/tokentree.1 lacks $flag of $name"; done <"$made/lacks"
    grep -o -e '--[a-z][a-z-]*' "$made/section" | sort -u | while read -r flag; do
        grep -q -e "^$flag	" "$made/flags-$name" || echo "$flag"
    done >"$made/more"
    while read -r flag; do fault "docs/tokentree.1 has $flag, which $name does not take"; done <"$made/more"
    grep -q -e "tokentree $name\b" docs/OPERATING.md README.md || fault "neither OPERATING.md nor README.md shows $name"
done <"$made/commands"
awk '/^\.SS / { print $2 }' docs/tokentree.1 | while read -r name; do
    cut -f1 "$made/commands" | grep -qx -e "$name" || echo "$name"
done >"$made/gone"
while read -r name; do fault "docs/tokentree.1 has a section on $name, which is no command"; done <"$made/gone"

# A line without the last letter of its last word, a tab, and that word.
typed() { printf '%s\t%s\n' "${1%?}" "${1##* }"; }
{
    for word in $names help --help --version; do typed "tokentree $word"; done
    for name in $names; do
        typed "tokentree help $name"
        cut -f1 "$made/flags-$name" | while read -r flag; do typed "tokentree $name $flag"; done
    done
} >"$made/wanted"

# Each reads such lines, and prints those that the shell does not complete.
try_bash() {
    # shellcheck disable=SC2016,SC2317
    bash --norc --noprofile -c '
        source packaging/completions/tokentree.bash
        while IFS="	" read -r typed word; do
            read -ra COMP_WORDS <<<"$typed"
            COMP_CWORD=$((${#COMP_WORDS[@]} - 1)) COMPREPLY=()
            _tokentree
            printf "%s\n" "${COMPREPLY[@]}" | grep -qxe "$word" || echo "$typed"
        done'
}

try_fish() {
    # shellcheck disable=SC2016,SC2317
    HOME=$made fish --no-config -c '
        source packaging/completions/tokentree.fish
        while read -d \t typed word
            contains -- $word (complete -C "$typed" | string split -f 1 \t); or echo $typed
        end'
}

# A zsh on its own terminal, in which a key completes the line and writes it into a file.
try_zsh() {
    # shellcheck disable=SC2016,SC2317
    zsh -f -c '
        zmodload zsh/zpty
        shown=$1
        : >$shown
        zpty -b shell zsh -f -i
        zpty -w shell "PROMPT= RPROMPT=; fpath=(${(q)PWD}/packaging/completions \$fpath)
            autoload -Uz compinit; compinit -D -u
            show() { zle complete-word; print -r -- \$BUFFER >>${(q)shown}; BUFFER=; zle redisplay }
            zle -N show; bindkey ^X show; print ready >>${(q)shown}"
        wait_for_lines() {
            repeat 500; do
                (( $(wc -l <$shown) >= $1 )) && return
                zpty -r -t shell output
                sleep 0.02
            done
        }
        wait_for_lines 1
        count=1
        while IFS="	" read -r typed word; do
            zpty -n -w shell "$typed"$'\''\x18'\''
            wait_for_lines $((++count))
            # After a whole word comes a space, unless another word begins with it.
            end=" "
            grep -qe "^${typed% *} ${word}[^[:space:]]" $2 && end=
            [[ $(tail -n 1 $shown) == "${typed% *} $word$end" ]] || echo $typed
        done
        zpty -d shell' zsh "$made/shown" "$made/wanted"
}

for shell in bash zsh fish; do
    if ! command -v "$shell" >/dev/null; then
        echo "packaging: $shell is not there to try its completions" >&2
        continue
    fi
    "try_$shell" <"$made/wanted" >"$made/not-completed" || fault "$shell cannot try its completions"
    while read -r typed; do fault "$shell does not complete: $typed"; done <"$made/not-completed"
done
exit $found
