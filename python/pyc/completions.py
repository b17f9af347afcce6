"""The completions for shells, made of the table of options."""
from __future__ import annotations

from typing import Callable, Dict, List, Sequence

from .options import HELP, Command, Option


def quoted(text: str) -> str:
    """A text in single quotes, as bash and zsh read them."""
    return "'%s'" % text.replace("'", "'\\''")


def names_of(command: Command) -> str:
    """The names of the options of a command."""
    return " ".join(name for option in (*command.options, HELP) for name in option.names)


def choices_of(option: Option) -> str:
    """The words that may stand behind an option."""
    return " ".join(option.choices)


def bash(commands: Sequence[Command]) -> str:
    """The completions for bash."""
    main, others = commands[0], commands[1:]
    lines = ["# bash completion for pyc", "_pyc() {", "    local word=${COMP_WORDS[COMP_CWORD]} words"]
    lines.append('    case "${COMP_WORDS[1]}:${COMP_WORDS[COMP_CWORD - 1]}" in')
    for command in (*others, main):
        first = "*" if command is main else command.name
        for option in command.options:
            if option.value:
                heads = "|".join("%s:%s" % (first, name) for name in option.names)
                given = '-W "%s"' % choices_of(option) if option.choices else "-f"
                lines.append('        %s) COMPREPLY=($(compgen %s -- "$word")); return ;;' % (heads, given))
    lines += ["    esac", '    case "${COMP_WORDS[1]}" in']
    lines += ['        %s) words="%s" ;;' % (it.name, names_of(it)) for it in others]
    lines += ['        *) words="%s" ;;' % names_of(main), "    esac"]
    lines.append('    [ "$COMP_CWORD" -eq 1 ] && words="$words %s"' % " ".join(it.name for it in others))
    lines += ['    COMPREPLY=($(compgen -W "$words" -- "$word"))', "}", "complete -o default -F _pyc pyc"]
    return "\n".join(lines) + "\n"


def zsh_option(option: Option) -> List[str]:
    """The words of `_arguments` for an option, one for each name."""
    about = option.about.replace("[", "\\[").replace("]", "\\]").replace(":", "\\:")
    value = ""
    if option.value:
        value = ":%s:%s" % (option.value, "(%s)" % choices_of(option) if option.choices else "_files")
    return [quoted("%s%s[%s]%s" % ("*" * option.many, name, about, value)) for name in option.names]


def zsh_arguments(command: Command, first: Sequence[str]) -> List[str]:
    """The call of `_arguments` for a command."""
    words = [it for option in (*command.options, HELP) for it in zsh_option(option)]
    return ["            _arguments \\", *("                %s \\" % it for it in (*words, *first)), "                '*:file:_files'", "            ;;"]


def zsh(commands: Sequence[Command]) -> str:
    """The completions for zsh."""
    main, others = commands[0], commands[1:]
    lines = ["#compdef pyc", "", "_pyc_first() {", "    local -a commands", "    commands=("]
    lines += ["        " + quoted("%s:%s" % (it.name, it.about)) for it in others]
    lines += ["    )", "    _describe command commands", "    _files", "}", "", "_pyc() {", '    case "${words[2]}" in']
    for command in others:
        lines += ["        %s)" % command.name, *zsh_arguments(command, ["'1:command:(%s)'" % command.name])]
    lines += ["        *)", *zsh_arguments(main, ["'1:command or file:_pyc_first'"]), "    esac", "}", "", '_pyc "$@"']
    return "\n".join(lines) + "\n"


def fish_quoted(text: str) -> str:
    """A text in single quotes, as fish reads them."""
    return "'%s'" % text.replace("\\", "\\\\").replace("'", "\\'")


def fish_option(option: Option) -> str:
    """The words of `complete` for an option."""
    names = ["-l " + it[2:] if it.startswith("--") else "-s " + it[1:] for it in option.names]
    value = ["-x -a " + fish_quoted(choices_of(option))] if option.choices else ["-r"] if option.value else []
    return " ".join([*names, *value, "-d", fish_quoted(option.about)])


def fish(commands: Sequence[Command]) -> str:
    """The completions for fish."""
    main, others = commands[0], commands[1:]
    names = " ".join(it.name for it in others)
    lines = ["# fish completion for pyc"]
    lines += ["complete -c pyc -n __fish_use_subcommand -a %s -d %s" % (it.name, fish_quoted(it.about)) for it in others]
    for command in commands:
        when = "not __fish_seen_subcommand_from " + names if command is main else "__fish_seen_subcommand_from " + command.name
        lines += ["complete -c pyc -n %s %s" % (fish_quoted(when), fish_option(it)) for it in (*command.options, HELP)]
    return "\n".join(lines) + "\n"


SHELLS: Dict[str, Callable[[Sequence[Command]], str]] = {"bash": bash, "zsh": zsh, "fish": fish}
