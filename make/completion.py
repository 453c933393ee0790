#!/usr/bin/env python3
"""Writes what a shell completes behind `hd`, by what the program's help says: commands, their options, the words of some, and else names of files.

    make/completion.py bash|zsh PROGRAM
"""
import re
import sys

from commands import commands_of, said

# Words that are numbers: of those nothing is completed.
NUMBERS = {"BLOCKS"}

# An empty word of a shell.
QUOTES = "''"


def explained(program):
    """The words that `hd explain` explains."""
    return [line.split()[0] for line in said(program, "explain").split("\n") if line and not line.endswith(":")]


BASH = """# bash completion of hd, as its help has it

_hd() {
    local word=$2 before=$3 command= place=0 options= at
    # bash parts --option=value in three words
    if [[ $word == = ]]; then word=; elif [[ $before == = ]]; then before=${COMP_WORDS[COMP_CWORD - 2]}; fi
    for ((at = 1; at < COMP_CWORD; at++)); do
        case $command:${COMP_WORDS[at]} in
            @VALUED@) if [[ ${COMP_WORDS[at + 1]} == = ]]; then ((at++)); fi; ((at++)) ;;
            *:-*) ;;
            :*) command=${COMP_WORDS[at]} ;;
            *) ((place++)) ;;
        esac
    done
    case $command:$before in
@VALUES@
    esac
    case $command in
@OPTIONS@
    esac
    if [[ $word == -* ]]; then
        COMPREPLY=($(compgen -W "$options" -- "$word"))
        return
    fi
    case $command:$place in
@PLACES@
        *) compopt +o default ;;
    esac
}

# where the function gives nothing, names of files are completed
complete -o default -F _hd hd
"""


def words_of(words):
    """What gives those of some words that begin as the one that is typed."""
    return f"COMPREPLY=($(compgen -W '{' '.join(words)}' -- \"$word\"))"


def arms(cases):
    """The arms of a shell's case: for each thing to do the patterns where it is done."""
    patterns = {}
    for pattern, done in cases:
        patterns.setdefault(done, []).append(pattern)
    return "\n".join(f"        {'|'.join(found)}) {done} ;;" for done, found in patterns.items())


def bash(program):
    """The completion of bash."""
    whole, commands = commands_of(program)
    valued = [(f"{command.name}:{name}", option) for command in [whole, *commands] for option in command.options for name in option.names if option.value]
    given = {"FILE": "return", "FOLDER": "return"}
    values = arms((place, f"{words_of(option.choices)}; return" if option.choices else given.get(option.value, "compopt +o default; return")) for place, option in valued)
    options = arms((command.name or QUOTES, f"options='{' '.join(name for option in command.options for name in option.names)}'") for command in [whole, *commands])
    places = [(":0", words_of(command.name for command in commands))]
    for command in commands:
        for place, word in enumerate(command.words):
            if word.name not in NUMBERS:
                places.append((f"{command.name}:{place}", words_of(explained(program)) if word.name == "WORD" else "return"))
    text = BASH
    for name, lines in (("@VALUED@", "|".join(place for place, _ in valued)), ("@VALUES@", values), ("@OPTIONS@", options), ("@PLACES@", arms(places))):
        text = text.replace(name, lines)
    return text


def quoted(text):
    """A text between the quotes and brackets of an argument of _arguments."""
    return re.sub(r"([\[\]:\\])", r"\\\1", text).replace("'", "'\\''")


def zsh_option(option):
    """An option as _arguments takes it."""
    names = option.names[0] if len(option.names) == 1 else "(" + " ".join(option.names) + ")'{" + ",".join(option.names) + "}'"
    value = ""
    if option.value:
        action = f"({' '.join(option.choices)})" if option.choices else "_files" if option.value in ("FILE", "FOLDER") else " "
        value = f":{option.value}:{action}"
    return f"'{names}{'=' if option.value else ''}[{quoted(option.about)}]{value}'"


def zsh_word(program, command, word):
    """A word in its place as _arguments takes it."""
    if word.name == "WORD":
        action = f"({' '.join(explained(program))})"
    else:
        action = " " if word.name in NUMBERS else "_files"
    return f"':{word.name}:{action}'"


ZSH = """#compdef hd
# zsh completion of hd, as its help has it

_hd() {
    local state line
    local -a commands
    commands=(
@COMMANDS@
    )
    _arguments -C @OPTIONS@ \\
        '1:command:->command' '*::word:->words'
    case $state in
        command) _describe command commands ;;
        words)
            case $line[1] in
@WORDS@
            esac
            ;;
    esac
}

_hd "$@"
"""


def zsh(program):
    """The completion of zsh."""
    whole, commands = commands_of(program)
    words = []
    for command in commands:
        arguments = [zsh_option(option) for option in command.options] + [zsh_word(program, command, word) for word in command.words]
        words.append(f"                {command.name}) _arguments " + " \\\n                    ".join(arguments) + " ;;")
    return (
        ZSH.replace("@COMMANDS@", "\n".join(f"        '{command.name}:{quoted(command.about)}'" for command in commands))
        .replace("@OPTIONS@", " \\\n        ".join(zsh_option(option) for option in whole.options))
        .replace("@WORDS@", "\n".join(words))
    )


if __name__ == "__main__":
    sys.stdout.write({"bash": bash, "zsh": zsh}[sys.argv[1]](sys.argv[2]))
