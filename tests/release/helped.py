"""What is made of a help: the manual page and the completions of two small programs, whole, as they were written by hand."""
from __future__ import annotations

from typing import TYPE_CHECKING, Dict, List, Tuple

import completions
import helps
import manual
from roots import put_script

if TYPE_CHECKING:
    from launchers import Trial

# By its words what a program says: one with commands, as this project's programs say it, and one without, as argparse does.
SAYS: Dict[str, str] = {
    "the-it --help": """Runs a trial of it. It isn't more.

Usage: the-it [OPTIONS] <COMMAND>
       the-it --version

Commands:
  run   Writes a sheet
  help  Print help of a command

Options:
  -h, --help     Print help
  -V, --version  Print version

Exit status: 0 for done; 1 where it
failed.
""",
    "the-it run --help": """Writes a sheet

Usage: the-it run [OPTIONS] FILE

Arguments:
  FILE  The table: a file's [path]

Options:
  -w, --workers <N>        How many: 1 to 3
      --capacity <full|N>  full, or from 1 to 1024 places
      --sheet <FILE>       A sheet's file
      --name ONE:TWO       A name
                           of one
  -h, --help               Print help

Reads a file.
  as.it stays

.dots begin it.

What begins with a point, as the name of a hidden file does, is not read, as a .csv
is.

Example: the-it run a.csv
""",
    "alone --help": """usage: alone [-h] [--form {csv,xlsx}] NAME TABLE
             [MORE]

Says why. And more.

positional arguments:
  NAME   Who asks
  TABLE  Its table

options:
  -h, --help            show this
  --form {csv,xlsx}     the form
  --plain
"""}
PAGES: Dict[str, str] = {
    "the-it": r'''.\" Made from what the-it --help says.
.TH THE-IT 1 "2026-11-29" "residency 1.2.3" "Residency"
.SH NAME
the\-it \- Runs a trial of it
.SH SYNOPSIS
the\-it [OPTIONS] <COMMAND>
.br
the\-it \-\-version
.br
the\-it run [OPTIONS] FILE
.SH DESCRIPTION
Runs a trial of it. It isn\(aqt more.
.SH OPTIONS
.TP
\fB\-h\fR, \fB\-\-help\fR
Print help
.TP
\fB\-V\fR, \fB\-\-version\fR
Print version
.SH EXIT STATUS
0 for done; 1 where it failed.
.SH COMMANDS
.TP
\fBrun\fR
Writes a sheet
.TP
\fBhelp\fR
Print help of a command
.SS the\-it run
Writes a sheet
.PP
Reads a file.
.RS 4
.nf
as.it stays
.fi
.RE
.PP
\&.dots begin it.
.PP
What begins with a point, as the name of a hidden file does, is not read, as a
\&.csv is.
.TP
\fIFILE\fR
The table: a file\(aqs [path]
.TP
\fB\-w\fR, \fB\-\-workers\fR \fI<N>\fR
How many: 1 to 3
.TP
\fB\-\-capacity\fR \fI<full|N>\fR
full, or from 1 to 1024 places
.TP
\fB\-\-sheet\fR \fI<FILE>\fR
A sheet\(aqs file
.TP
\fB\-\-name\fR \fIONE:TWO\fR
A name of one
.TP
\fB\-h\fR, \fB\-\-help\fR
Print help
.PP
Examples:
.RS 4
.nf
the\-it run a.csv
.fi
.RE
.SH SEE ALSO
.BR the\-other (1),
.BR the\-third (1)
''',
    "alone": r'''.\" Made from what alone --help says.
.TH ALONE 1 "2026-11-29" "residency 1.2.3" "Residency"
.SH NAME
alone \- Says why
.SH SYNOPSIS
alone [\-h] [\-\-form {csv,xlsx}] NAME TABLE [MORE]
.SH DESCRIPTION
Says why. And more.
.SH ARGUMENTS
.TP
\fINAME\fR
Who asks
.TP
\fITABLE\fR
Its table
.SH OPTIONS
.TP
\fB\-h\fR, \fB\-\-help\fR
show this
.TP
\fB\-\-form\fR \fI{csv,xlsx}\fR
the form
.TP
\fB\-\-plain\fR
\&
'''}
BASH: Dict[str, str] = {
    "the-it": r'''# Completions of the-it for bash, made from its --help.
_the_it() {
    local word=${COMP_WORDS[COMP_CWORD]} before=${COMP_WORDS[COMP_CWORD - 1]} command= words= place
    for ((place = 1; place < COMP_CWORD; place++)); do
        case ${COMP_WORDS[place]} in
        run | help) command=${COMP_WORDS[place]} && break ;;
        esac
    done
    case "$command $before" in
    'run -w' | 'run --workers') words='1 2 3' ;;
    'run --capacity') words='full' ;;
    'run --sheet') words='' ;;
    'run --name') words='' ;;
    *)
        case $command in
        help) words='run' ;;
        'run') [[ $word != -* ]] || words='-w --workers --capacity --sheet --name -h --help' ;;
        *) words='run help -h --help -V --version' ;;
        esac
        ;;
    esac
    mapfile -t COMPREPLY < <(compgen -W "$words" -- "$word")
}
complete -o bashdefault -o default -F _the_it the-it
''',
    "alone": r'''# Completions of alone for bash, made from its --help.
_alone() {
    local word=${COMP_WORDS[COMP_CWORD]} before=${COMP_WORDS[COMP_CWORD - 1]} command= words= place
    case "$command $before" in
    ' --form') words='csv xlsx' ;;
    *)
        case $command in
        *) [[ $word != -* ]] || words='-h --help --form --plain' ;;
        esac
        ;;
    esac
    mapfile -t COMPREPLY < <(compgen -W "$words" -- "$word")
}
complete -o bashdefault -o default -F _alone alone
'''}
ZSH: Dict[str, str] = {
    "the-it": r'''#compdef the-it
# Completions of the-it for zsh, made from its --help.

local curcontext=$curcontext state line
typeset -A opt_args
_arguments -C \
    {-h,--help}'[Print help]' \
    {-V,--version}'[Print version]' \
    '1:command:->command' \
    '*::word:->words'
case $state in
command)
    local -a commands=(
        'run:Writes a sheet'
        'help:Print help of a command'
    )
    _describe command commands
    ;;
words)
    case $line[1] in
    run)
        _arguments -C \
            {-w,--workers}'[How many\: 1 to 3]:N:(1 2 3)' \
            --capacity'[full, or from 1 to 1024 places]:full|N:(full)' \
            --sheet'[A sheet'\''s file]:FILE:_files' \
            --name'[A name of one]:ONE\:TWO: ' \
            {-h,--help}'[Print help]' \
            '*:file:_files'
        ;;
    help) compadd run ;;
    esac
    ;;
esac
''',
    "alone": r'''#compdef alone
# Completions of alone for zsh, made from its --help.

local curcontext=$curcontext state line
typeset -A opt_args
_arguments -C \
    {-h,--help}'[show this]' \
    --form'[the form]:{csv,xlsx}:(csv xlsx)' \
    --plain'[]' \
    '*:file:_files'
'''}
FISH: Dict[str, str] = {
    "the-it": r'''# Completions of the-it for fish, made from its --help.
complete -c the-it -f
complete -c the-it -n __fish_use_subcommand -a run -d 'Writes a sheet'
complete -c the-it -n __fish_use_subcommand -a help -d 'Print help of a command'
complete -c the-it -n __fish_use_subcommand -s h -l help -d 'Print help'
complete -c the-it -n __fish_use_subcommand -s V -l version -d 'Print version'
complete -c the-it -n '__fish_seen_subcommand_from run' -F
complete -c the-it -n '__fish_seen_subcommand_from run' -s w -l workers -x -a '1 2 3' -d 'How many: 1 to 3'
complete -c the-it -n '__fish_seen_subcommand_from run' -l capacity -x -a 'full' -d 'full, or from 1 to 1024 places'
complete -c the-it -n '__fish_seen_subcommand_from run' -l sheet -r -F -d 'A sheet\'s file'
complete -c the-it -n '__fish_seen_subcommand_from run' -l name -x -d 'A name of one'
complete -c the-it -n '__fish_seen_subcommand_from run' -s h -l help -d 'Print help'
complete -c the-it -n '__fish_seen_subcommand_from help' -a 'run'
''',
    "alone": r'''# Completions of alone for fish, made from its --help.
complete -c alone -F
complete -c alone -s h -l help -d 'show this'
complete -c alone -l form -x -a 'csv xlsx' -d 'the form'
complete -c alone -l plain -d ''
'''}
# Helps that are none, and what is said of them.
NO_HELPS: List[Tuple[str, str]] = [
    ("alone", "a help without a usage or without options"), ("usage: alone\n", "a help without a usage or without options"),
    ("options:\n  -h  show this\n", "a help without a usage or without options"),
    ("usage: alone\n\noptions:\n  -  show this\n", "'-' is no option"), ("usage: alone\n\noptions:\nnothing\n", "no entry of a list: nothing")]


def try_all(trial: Trial, folder: str) -> None:
    of_others: List[Tuple[str, List[str]]] = [("the-it", ["the-other", "the-third"]), ("alone", [])]
    for name, others in of_others:
        cases = "".join(f"{words!r}) cat << 'END'\n{text}END\n;;\n" for words, text in SAYS.items())
        put_script(f"{folder}/{name}", f'#!/bin/bash\n[ "$COLUMNS $LC_ALL $NO_COLOR" = "1000 C.UTF-8 1" ] || exit 9\ncase "${{0##*/}} $*" in\n{cases}esac\n')
        program = helps.read_program(name, [f"{folder}/{name}"])
        trial.same(manual.manual_page(program, "1.2.3", "2026-11-29", others), PAGES[name], f"the manual page of {name}")
        for shell, wanted, made in (("bash", BASH, completions.bash), ("zsh", ZSH, completions.zsh), ("fish", FISH, completions.fish)):
            trial.same(made(program), wanted[name], f"{shell}'s completions of {name}")
    for text, wrong in NO_HELPS:
        told = ""
        try:
            helps.read_help(text)
        except ValueError as fault:
            told = str(fault)
        trial.same(told, wrong, f"what is said of the help {text!r}")
    put_script(f"{folder}/failing", "#!/bin/bash\necho 'out of memory' >&2\nexit 1\n")
    try:
        helps.read_program("failing", [f"{folder}/failing"])
        trial.tell(False, "a help that fails is read")
    except ValueError as fault:
        trial.same(str(fault), f"{folder}/failing --help ends with status 1: out of memory", "what is said of a help that fails")
