"""The completion of words in shells, made of the table of words.

Each text has the same three questions in its shell's language: what stands at a place of a command, which options a command has, and what
stands behind an option. What is offered there is either some words, or files with an ending and folders, or nothing.
"""
from __future__ import annotations

from typing import Callable, Sequence

from .table import Kind, Word
from .words import Form, all_forms

# the words of ./block itself; behind the first one the words of a command stand as ever
OWN = ("--try", "--help", "--version")
ENDINGS = {Kind.JSON: "*.json", Kind.CSV: "*.csv", Kind.FILE: "*", Kind.OUTPUT: "*"}


def offered(word: Word) -> str:
    """What is offered for a word: the words themselves, `files` and a pattern, or nothing."""
    if word.offered():
        return " ".join(word.offered())
    return f"files {ENDINGS[word.kind]}" if word.kind in ENDINGS else ""


def seconds(forms: Sequence[Form]) -> dict[str, list[str]]:
    """Of each first word that more follow the second words."""
    found: dict[str, list[str]] = {}
    for form in forms:
        first, _, second = form.name.partition(" ")
        if second:
            found.setdefault(first, []).append(second)
    return found


def at_places(forms: Sequence[Form]) -> list[tuple[str, str]]:
    """What is offered at each place: the command's name with the place, and what is offered."""
    found = [(":0", " ".join([*dict.fromkeys(form.name.split()[0] for form in forms), *OWN]))]
    found += [(f"{first}:0", " ".join([*words, "--help"])) for first, words in seconds(forms).items()]
    found += [(f"{form.name}:{place}", offered(word)) for form in forms for place, word in enumerate(form.places)]
    return found


def flags(forms: Sequence[Form]) -> list[tuple[str, str]]:
    """The options of each command that has any."""
    return [(form.name, " ".join(option.flag for option in form.options)) for form in forms if form.options]


def behind(forms: Sequence[Form]) -> list[tuple[str, str]]:
    """What is offered behind each option that takes a word."""
    return [(f"{form.name}:{option.flag}", offered(option.word)) for form in forms for option in form.options if option.word]


def in_sh(entries: Sequence[tuple[str, str]]) -> str:
    """The entries as they stand in a case of bash and zsh."""
    together: dict[str, list[str]] = {}
    for key, answer in entries:
        together.setdefault(answer, []).append(f'"{key}"')
    return "\n".join(f"        {' | '.join(keys)}) _block_answer='{answer}' ;;" for answer, keys in together.items())


def in_fish(entries: Sequence[tuple[str, str]]) -> str:
    """The entries as they stand in a switch of fish."""
    together: dict[str, list[str]] = {}
    for key, answer in entries:
        together.setdefault(answer, []).append(f"'{key}'")
    return "\n".join(f"        case {' '.join(keys)}\n            echo '{answer}'" for answer, keys in together.items())


# bash and zsh: the words before the current one are walked once; options and what stands behind them take no place
SH = """# Sets _block_answer to what is offered at a place of a command.
_block_at() {{
    _block_answer=
    case "$1:$2" in
{places}
    esac
}}

# Sets _block_answer to the options of a command.
_block_flags() {{
    _block_answer=
    case "$1" in
{flags}
    esac
}}

# Sets _block_answer to what is offered behind an option of a command, and ends with 1 where it takes no word.
_block_behind() {{
    _block_answer=
    case "$1:$2" in
{behind}
        *) return 1 ;;
    esac
}}

# Sets _block_answer to what is offered for the last of these words, of which the first is the program's own.
_block_offered() {{
    local name= place=0 option= current= word
    shift
    [ $# -le 1 ] || [ "$1" != --try ] || shift
    while [ $# -gt 1 ]; do
        word=$1
        shift
        if [ -n "$option" ]; then
            option=
        elif [ -z "$name" ] || case " {groups} " in *" $name "*) [ "$place" = 0 ] ;; *) false ;; esac; then
            name="${{name:+$name }}$word"
        elif [ "${{word#-}}" != "$word" ]; then
            _block_behind "$name" "$word" && option=$word
        else
            place=$((place + 1))
        fi
    done
    current=$1
    if [ -n "$option" ]; then
        _block_behind "$name" "$option"
    elif [ -n "$name" ] && [ "${{current#-}}" != "$current" ]; then
        _block_flags "$name"
    else
        _block_at "$name" "$place"
    fi
}}
"""

BASH = """# Completes the words of ./block in bash: source <(./block completion bash)
# It serves ./block and any other path to a file that is named block or block_cli.

{common}
_block() {{
    local _block_answer word=${{COMP_WORDS[COMP_CWORD]}}
    COMPREPLY=()
    _block_offered "${{COMP_WORDS[@]:0:COMP_CWORD+1}}"
    case $_block_answer in
        "") ;;
        "files *")
            compopt -o filenames 2>/dev/null
            mapfile -t COMPREPLY < <(compgen -f -- "$word")
            ;;
        "files "*)
            compopt -o filenames 2>/dev/null
            mapfile -t COMPREPLY < <({{ compgen -f -X "!${{_block_answer#files }}" -- "$word"; compgen -d -- "$word"; }} | sort -u)
            ;;
        *) mapfile -t COMPREPLY < <(compgen -W "$_block_answer" -- "$word") ;;
    esac
}}

complete -F _block block block_cli
"""

ZSH = """#compdef block block_cli
# Completes the words of ./block in zsh: source <(./block completion zsh), once compinit has run

{common}
_block() {{
    local _block_answer
    _block_offered "${{(@)words[1,CURRENT]}}"
    case $_block_answer in
        "") return 1 ;;
        "files "*) _files -g "${{_block_answer#files }}" ;;
        *) compadd -- ${{=_block_answer}} ;;
    esac
}}

(( $+functions[compdef] )) && compdef _block block block_cli
"""

FISH = """# Completes the words of ./block in fish: ./block completion fish | source

function __block_at
    switch "$argv[1]:$argv[2]"
{places}
    end
end

function __block_flags
    switch "$argv[1]"
{flags}
    end
end

function __block_behind
    switch "$argv[1]:$argv[2]"
{behind}
        case '*'
            return 1
    end
end

# What is offered for the last of these words, of which the first is the program's own.
function __block_answer
    set -l name ''
    set -l place 0
    set -l option ''
    set -l words $argv[2..-2]
    test "$words[1]" = --try; and set -e words[1]
    for word in $words
        if test -n "$option"
            set option ''
        else if test -z "$name"
            set name $word
        else if test $place = 0; and contains -- "$name" {groups}
            set name "$name $word"
        else if string match -q -- '-*' $word
            __block_behind "$name" "$word" >/dev/null; and set option $word
        else
            set place (math $place + 1)
        end
    end
    if test -n "$option"
        __block_behind "$name" "$option"
    else if test -n "$name"; and string match -q -- '-*' "$argv[-1]"
        __block_flags "$name"
    else
        __block_at "$name" $place
    end
end

function __block_offered
    set -l answer (__block_answer (commandline -opc) (commandline -ct))
    switch "$answer"
        case ''
        case 'files \\*.*'
            __fish_complete_suffix (string replace 'files *' '' -- $answer)
        case 'files *'
            __fish_complete_path (commandline -ct)
        case '*'
            string split ' ' -- $answer
    end
end

complete -c block -f -a '(__block_offered)'
complete -c block_cli -f -a '(__block_offered)'
"""


def of_shell(template: str, entries_of: Callable[[Sequence[tuple[str, str]]], str]) -> str:
    """The text of a shell, with the table in its language."""
    forms = all_forms()
    return template.format(places=entries_of(at_places(forms)), flags=entries_of(flags(forms)), behind=entries_of(behind(forms)), groups=" ".join(seconds(forms)))


def bash() -> str:
    """What bash sources."""
    return BASH.format(common=of_shell(SH, in_sh))


def zsh() -> str:
    """What zsh sources."""
    return ZSH.format(common=of_shell(SH, in_sh))


def fish() -> str:
    """What fish sources."""
    return of_shell(FISH, in_fish)


TEXTS: dict[str, Callable[[], str]] = {"bash": bash, "zsh": zsh, "fish": fish}
