"""Makes a program's completions for bash, zsh and fish from its help."""
from __future__ import annotations

from typing import List, Tuple

from helps import Entry, Help, Program


def words_of(help_: Help) -> List[str]:
    """All that may stand at a place: the names of commands and of options."""
    return [name for entry in [*help_.commands, *help_.options] for name in entry.names]


def parts_of(program: Program) -> List[Tuple[str, Help]]:
    """Each command with its help, the program itself first."""
    return [("", program.top), *program.commands.items()]


def takes_files(program: Program, command: str) -> bool:
    """Whether words that are no options may be files."""
    return any(argument.takes_file() for argument in dict(parts_of(program))[command].arguments)


def bash(program: Program) -> str:
    function = "_" + program.name.replace("-", "_")
    commands = [entry.names[0] for entry in program.top.commands]
    values, words = [], []
    for command, help_ in parts_of(program):
        for option in help_.options:
            if option.value:
                names = " | ".join(f"'{command} {name}'" for name in option.names)
                values.append(f"    {names}) words='{' '.join(option.choices())}' ;;")
        pattern = f"'{command}'" if command else "*"
        # Where a file may stand, a word that is no option is left to the shell.
        what = f"words='{' '.join(words_of(help_))}'"
        words.append((pattern, f"[[ $word != -* ]] || {what}" if takes_files(program, command) else what))
    # The program's own words come last, since their pattern takes every command.
    words = words[1:] + words[:1]
    if "help" in commands:
        words.insert(0, ("help", f"words='{' '.join(program.commands)}'"))
    lines = [f"# Completions of {program.name} for bash, made from its --help.", f"{function}() {{",
             "    local word=${COMP_WORDS[COMP_CWORD]} before=${COMP_WORDS[COMP_CWORD - 1]} command= words= place"]
    if commands:
        lines += ["    for ((place = 1; place < COMP_CWORD; place++)); do", "        case ${COMP_WORDS[place]} in",
                  f"        {' | '.join(commands)}) command=${{COMP_WORDS[place]}} && break ;;", "        esac", "    done"]
    lines += ['    case "$command $before" in', *values, "    *)", "        case $command in",
              *(f"        {pattern}) {what} ;;" for pattern, what in words), "        esac", "        ;;", "    esac",
              '    mapfile -t COMPREPLY < <(compgen -W "$words" -- "$word")', "}",
              f"complete -o bashdefault -o default -F {function} {program.name}"]
    return "\n".join(lines) + "\n"


def in_brackets(text: str) -> str:
    """A text that describes an option of _arguments, between single quotes."""
    return text.replace("\\", "\\\\").replace("[", "\\[").replace("]", "\\]").replace(":", "\\:").replace("'", "'\\''")


def zsh_option(option: Entry) -> str:
    value = ""
    if option.value:
        choices = option.choices()
        title = in_brackets(option.value.strip("<>"))
        value = f":{title}:" + (f"({' '.join(choices)})" if choices else "_files" if option.takes_file() else " ")
    names = "{" + ",".join(option.names) + "}" if len(option.names) > 1 else option.names[0]
    return f"{names}'[{in_brackets(option.text)}]{value}'"


def zsh_rest(program: Program, command: str) -> str:
    """What words that are no options may be."""
    return "'*:file:_files'" if takes_files(program, command) else "'*: : '"


def zsh(program: Program) -> str:
    lines = [f"#compdef {program.name}", f"# Completions of {program.name} for zsh, made from its --help.", "",
             "local curcontext=$curcontext state line", "typeset -A opt_args"]

    def arguments(help_: Help, indent: str, more: List[str]) -> List[str]:
        parts = [*(zsh_option(option) for option in help_.options), *more]
        return [f"{indent}_arguments -C \\", *(f"{indent}    {part} \\" for part in parts[:-1]), f"{indent}    {parts[-1]}"]

    if not program.top.commands:
        return "\n".join([*lines, *arguments(program.top, "", [zsh_rest(program, "")])]) + "\n"
    lines += arguments(program.top, "", ["'1:command:->command'", "'*::word:->words'"])
    lines += ["case $state in", "command)", "    local -a commands=("]
    lines += [f"        '{entry.names[0]}:{in_brackets(entry.text)}'" for entry in program.top.commands]
    lines += ["    )", "    _describe command commands", "    ;;", "words)", "    case $line[1] in"]
    for command, help_ in program.commands.items():
        lines += [f"    {command})", *arguments(help_, "        ", [zsh_rest(program, command)]), "        ;;"]
    if "help" in words_of(program.top):
        lines += [f"    help) compadd {' '.join(program.commands)} ;;"]
    return "\n".join([*lines, "    esac", "    ;;", "esac"]) + "\n"


def quoted(text: str) -> str:
    return "'" + text.replace("\\", "\\\\").replace("'", "\\'") + "'"


def fish(program: Program) -> str:
    start = f"complete -c {program.name}"
    lines = [f"# Completions of {program.name} for fish, made from its --help."]
    if program.top.commands:
        lines.append(f"{start} -f")
    for entry in program.top.commands:
        lines.append(f"{start} -n __fish_use_subcommand -a {entry.names[0]} -d {quoted(entry.text)}")
    for command, help_ in parts_of(program):
        where = f" -n {quoted('__fish_seen_subcommand_from ' + command)}" if command else \
            " -n __fish_use_subcommand" if program.top.commands else ""
        if takes_files(program, command):
            lines.append(f"{start}{where} -F")
        for option in help_.options:
            names = "".join(f" -l {name[2:]}" if name.startswith("--") else f" -s {name[1:]}" for name in option.names)
            value = ""
            if option.value:
                choices = option.choices()
                value = f" -x -a {quoted(' '.join(choices))}" if choices else " -r -F" if option.takes_file() else " -x"
            lines.append(f"{start}{where}{names}{value} -d {quoted(option.text)}")
    if "help" in words_of(program.top):
        lines.append(f"{start} -n '__fish_seen_subcommand_from help' -a {quoted(' '.join(program.commands))}")
    return "\n".join(lines) + "\n"
