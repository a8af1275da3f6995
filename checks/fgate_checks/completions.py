"""The completions of bash, zsh and fish.

Each knows a command's names, how often each may stand, and the values of a choice.
"""

from __future__ import annotations

from fgate_checks.program_help import Command, Help

HEAD = "# Completion of fgate for {shell}. Made by tools/install from fgate --help.\n"

BASH = r"""
# The names of a command: how often each may stand, and its values, if a choice.
_fgate_names() {
    case $1 in
@names@
    esac
}

# What may stand as the word that begins so, behind the words before it.
_fgate_words() {
    local begun=$1 name most values given word
    shift
    if [ $# -eq 1 ]; then
        printf '%s\n' @commands@ --help --version
        return
    fi
    [ $# -eq 2 ] && [ -n "$(_fgate_names "$2")" ] && echo --help
    while read -r name most values; do
        given=0
        for word in "${@:3}"; do
            case $word in "$name"=*) given=$((given + 1)) ;; esac
        done
        [ "$given" -lt "$most" ] || continue
        case $begun in
            "$name"=*) for word in $values; do printf '%s\n' "$name=$word"; done ;;
            *) printf '%s\n' "$name=" ;;
        esac
    done < <(_fgate_names "$2")
}

_fgate() {
    local line=${COMP_LINE:0:COMP_POINT} words begun word kept=
    # Words end at blanks alone here: the shell cuts them at each `=` too.
    read -ra words <<< "$line"
    begun=
    case $line in *[![:blank:]]) begun=${words[-1]}; unset 'words[-1]' ;; esac
    COMPREPLY=()
    if [[ $begun == [0-9\<\>]* && $begun == *[\<\>]* ]] ||
        [[ ${words[-1]} =~ ^[0-9]*[\<\>]+$ ]]; then
        compopt -o filenames
        mapfile -t COMPREPLY < <(compgen -f -- "${begun##*[<>]}")
        return
    fi
    compopt -o nospace -o nosort 2> /dev/null
    case $begun:$COMP_WORDBREAKS in *=*:*=*) kept=${begun%%=*}= ;; esac
    while read -r word; do
        case $word in
            "$begun"*)
                case $word in *=) ;; *) word="$word " ;; esac
                COMPREPLY+=("${word#"$kept"}") ;;
        esac
    done < <(_fgate_words "$begun" "${words[@]}")
}

complete -F _fgate fgate
"""

ZSH = r"""
_fgate_names() {
    case $1 in
@names@
    esac
}

_fgate() {
    local -a rows names choices
    local row name given
    if (( CURRENT == 2 )); then
        names=(
@commands@
            '--help:how it is called'
            '--version:which version it is'
        )
        _describe -V command names
        return
    fi
    _fgate_names $words[2]
    if compset -P 1 '*='; then
        for row in $rows; do
            [[ $IPREFIX == ${row%%:*}= ]] || continue
            choices=(${(s:|:)${row##*:}})
            if (( $#choices > 1 )); then
                compadd -V value -- $choices
            else
                _message "${${row#*:*:}%:*}, ${row##*:}"
            fi
        done
        return
    fi
    for row in $rows; do
        name=${row%%:*}
        given=${#${(M)words[3,CURRENT-1]:#${name}=*}}
        (( given < ${${row#*:}%%:*} )) && names+=("$name:${${row#*:*:}%:*}, ${row##*:}")
    done
    (( $#names )) && _describe -V name names -S =
    if (( CURRENT == 3 && $#rows )); then
        names=('--help:how the command is called')
        _describe -V option names
    fi
}

_fgate "$@"
"""

FISH = r"""
# Whether the command is this one.
function __fgate_is
    set -l words (commandline -opc)
    test (count $words) -ge 2; and test "$words[2]" = "$argv[1]"
end

# Whether the name may stand behind the command once more, of so many times.
function __fgate_may
    set -l given (commandline -opc | string match -e -r -- "^$argv[2]=")
    __fgate_is $argv[1]; and test (count $given) -lt $argv[3]
end

# Whether the word that is being written is of this name.
function __fgate_begins
    string match -q -- "$argv[1]=*" (commandline -ct)
end

function __fgate_stands_alone
    test (commandline -opc | count) -eq $argv[1]
end

complete -c fgate -f
complete -c fgate -n '__fgate_stands_alone 1' -a --help -d 'how it is called'
complete -c fgate -n '__fgate_stands_alone 1' -a --version -d 'which version it is'
"""


def quoted(text: str) -> str:
    """The text as one word of a shell."""
    return "'" + text.replace("'", "'\\''") + "'"


def bash(program: Help) -> str:
    """The completion of bash."""
    told = ""
    for command in program.commands:
        rows = [[it.name, str(it.most), *it.choices] for it in command.names]
        words = " ".join(quoted(" ".join(row)) for row in rows)
        told += f"        {command.word}) printf '%s\\n' {words} ;;\n"
    commands = " ".join(command.word for command in program.commands)
    text = BASH.replace("@names@\n", told).replace("@commands@", commands)
    return HEAD.format(shell="bash") + text


def zsh(program: Help) -> str:
    """The completion of zsh."""
    told, commands, margin = "", "", " " * 12
    for command in program.commands:
        rows = [f"{it.name}:{it.most}:{it.about}:{it.values}" for it in command.names]
        lines = "".join(f"{margin}{quoted(row)}\n" for row in rows)
        told += f"        {command.word}) rows=(\n{lines}        ) ;;\n"
        shown = f"{command.word}:{command.about}".replace(": ", "\\: ")
        commands += f"{margin}{quoted(shown)}\n"
    text = ZSH.replace("@names@\n", told).replace("@commands@\n", commands)
    return "#compdef fgate\n" + HEAD.format(shell="zsh") + text


def fish_command(command: Command) -> str:
    """The lines that complete a command for fish."""
    word = command.word
    stands = f"-n '__fgate_stands_alone 1' -a {word} -d {quoted(command.about)}"
    told = f"\ncomplete -c fgate -k {stands}\n"
    alone = f"-n '__fgate_stands_alone 2; and __fgate_is {word}'"
    told += f"complete -c fgate {alone} -a --help -d 'how the command is called'\n"
    for name in command.names:
        may = f"__fgate_may {word} {name.name} {name.most}"
        begun = f"__fgate_begins {name.name}"
        about = quoted(f"{name.about}, {name.values}")
        first = f"-n '{may}; and not {begun}' -a {name.name}= -d {about}"
        told += f"complete -c fgate {first}\n"
        for choice in name.choices:
            later = f"-n '{may}; and {begun}' -a {name.name}={choice}"
            told += f"complete -c fgate {later}\n"
    return told


def fish(program: Help) -> str:
    """The completion of fish."""
    told = [fish_command(command) for command in program.commands]
    return HEAD.format(shell="fish") + FISH + "".join(told)


def scripts(program: Help) -> dict[str, str]:
    """Each completion under the name that its shell looks for."""
    return {
        "fgate": bash(program),
        "_fgate": zsh(program),
        "fgate.fish": fish(program),
    }
