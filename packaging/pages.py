#!/usr/bin/env python3
"""Makes the man page and the completions for bash, zsh and fish from the help of the program.

    packaging/pages.py PROGRAM FOLDER

The help of the program is the only source, so a new command or option is in the pages too. The date of the man page is that of
the last commit or, without git, of the program.
"""

import datetime
import re
import subprocess
import sys
from dataclasses import dataclass
from pathlib import Path

OPTION = re.compile(r"  (?:(-\w), |    )(--[\w-]+)(?: <([^>]+)>)? {2,}(.+)")
ENTRY = re.compile(r"  (\S+) {2,}(.+)")
# A description of an option that ends with a list of its values.
CHOICES = re.compile(r".*: ((?:\w+, )*\w+,? or \w+)\b")
# The names of option values that are paths.
PATHS = {"PATH", "FILE", "DIR"}
TABLE = "NAME=PATH"


@dataclass
class Option:
    """An option: `-h` or None, `--help`, the name of its value or None, and its description."""

    short: str | None
    long: str
    value: str | None
    about: str

    @property
    def names(self):
        return [name for name in (self.short, self.long) if name]

    @property
    def choices(self):
        """The values of the option, if its description lists them."""
        found = CHOICES.match(self.about) if self.value else None
        return re.split(r",? or |, ", found[1]) if found else []


@dataclass
class Command:
    """A command: its name, description, usage and options, and the texts after the options in its help, by their titles."""

    name: str
    about: str
    usage: str
    options: list
    notes: dict


def help_of(program, *words):
    """The paragraphs of a help text, each a list of lines."""
    text = subprocess.run([program, *words, "--help"], check=True, stdout=subprocess.PIPE).stdout.decode()
    return [paragraph.split("\n") for paragraph in text.strip("\n").split("\n\n")]


def entries(paragraphs, title, form):
    """The groups of `form` in the lines of the paragraph with this title."""
    lines = next((paragraph[1:] for paragraph in paragraphs if paragraph[0] == title), [])
    return [found.groups() for found in map(form.fullmatch, lines) if found]


def command_of(program, *words):
    """The command that a help text describes."""
    paragraphs = help_of(program, *words)
    usage = next(paragraph[0] for paragraph in paragraphs if paragraph[0].startswith("Usage: "))
    options = [Option(*groups) for groups in entries(paragraphs, "Options:", OPTION)]
    first = next(place for place, paragraph in enumerate(paragraphs) if paragraph[0] == "Options:") + 1
    notes = {paragraph[0].rstrip(":"): paragraph[1:] for paragraph in paragraphs[first:]}
    return Command(words[-1] if words else "tq", paragraphs[0][0], usage.removeprefix("Usage: "), options, notes)


def roff(text):
    """A text as a line of a man page."""
    text = text.replace("\\", "\\e").replace("-", "\\-")
    return "\\&" + text if text.startswith((".", "'")) else text


def man_options(command):
    for option in command.options:
        names = ", ".join(option.names)
        yield from (".TP", f"\\fB{roff(names)}\\fR" + (f" \\fI{roff(option.value)}\\fR" if option.value else ""), roff(option.about))


def text_block(lines):
    return [".nf", *map(roff, lines), ".fi"]


def man_page(whole, commands, version, date):
    """The page for section 1 of the manual."""
    lines = [f'.TH TQ 1 "{date}" "{version}" "User Commands"', ".SH NAME", f"tq \\- {roff(whole.about[0].lower() + whole.about[1:].rstrip('.'))}", ".SH SYNOPSIS"]
    for command in commands:
        lines += [".PP", roff(command.usage)]
    lines += [".SH OPTIONS", *man_options(whole)]
    for command in commands:
        lines += [f".SH {command.name.upper()}", roff(command.about) + ".", *man_options(command)]
    notes = {title: text for command in [whole, *commands] for title, text in command.notes.items()}
    examples = {title: text for title, text in notes.items() if title.startswith("Example")}
    for title, text in notes.items():
        if title not in examples:
            lines += [f".SH {roff(title.upper())}", *text_block(text)]
    lines += [".SH EXAMPLES"]
    for title, text in examples.items():
        about = re.sub(r"^Example \(?|\)$", "", title)
        lines += [".PP", roff(about[:1].upper() + about[1:] + ":"), ".PP", *text_block(text)]
    lines += [".SH EXIT STATUS", "0 if there is an answer, 1 if there is none, 2 if the command line is invalid."]
    lines += [".SH SEE ALSO", r"\fBtq help\fR \fICOMMAND\fR, \fBrlwrap\fR(1) to edit the lines of a session, \fBparallel\fR(1) to query parts of tables"]
    return "\n".join(lines) + "\n"


def paths_in(command):
    """The options of a command whose value is a path."""
    return [name for option in command.options if option.value in PATHS for name in option.names]


def choices_in(commands):
    """The options with listed values, each with the name of its command."""
    return {f"{command.name}:{option.long}": option.choices for command in commands for option in command.options if option.choices}


def bash_page(whole, commands):
    """A script that completes commands, options, their values, and the paths of options and of `--table NAME=`."""
    options = {command.name: " ".join(option.long for option in command.options) for command in commands}
    arms = "\n".join(f"        {name}) words='{words}' ;;" for name, words in options.items())
    names = " ".join(command.name for command in commands)
    own = " ".join(option.long for option in whole.options)
    paths = "|".join(sorted({name for command in commands for name in paths_in(command)}))
    values = "\n".join(f"""        {name}) COMPREPLY=($(compgen -W '{" ".join(choices)}' -- "$word")); return ;;""" for name, choices in choices_in(commands).items())
    return f"""_tq_paths() {{
    compopt -o filenames 2> /dev/null
    local IFS=$'\\n'
    COMPREPLY=($(compgen -f -- "$1"))
}}
_tq() {{
    local word=${{COMP_WORDS[COMP_CWORD]}} before=${{COMP_WORDS[COMP_CWORD-1]}} words
    if [[ $word == = || $before == = ]]; then
        _tq_paths "${{word#=}}"
        return
    fi
    case $before in
        {paths}) _tq_paths "$word"; return ;;
        --table) compopt -o nospace 2> /dev/null; return ;;
    esac
    case ${{COMP_WORDS[1]}}:$before in
{values}
    esac
    if ((COMP_CWORD == 1)); then
        words='{names} help {own}'
    else
        case ${{COMP_WORDS[1]}} in
        help) ((COMP_CWORD == 2)) && words='{names}' ;;
{arms}
        esac
    fi
    [[ $words && ( $word == -* || COMP_CWORD -le 2 ) ]] && COMPREPLY=($(compgen -W "$words" -- "$word"))
    [[ ${{COMPREPLY[*]}} || $word == -* || ${{COMP_WORDS[1]}} != @(import|merge) ]] || _tq_paths "$word"
}}
complete -F _tq tq
"""


def quoted(text):
    """A text between single quotes of a shell."""
    return "'" + text.replace("'", "'\\''") + "'"


def zsh_value(option):
    """The part of an argument of `_arguments` that completes the value of an option."""
    if not option.value:
        return ""
    listed = f"({' '.join(option.choices)})" if option.choices else ""
    action = "_tq_table" if option.value == TABLE else "_files" if option.value in PATHS else listed
    return f":{option.value}:{action}"


def zsh_page(commands):
    """A script that completes commands, options, their values, and the paths of options and of `--table NAME=`."""
    entries = "\n".join(f"        {quoted(command.name + ':' + command.about)}" for command in commands)
    arms = []
    for command in commands:
        lines = []
        for option in command.options:
            about = option.about.replace("[", "(").replace("]", ")").replace(":", "")
            lines += [f"                {quoted('*' + name + '[' + about + ']' + zsh_value(option))} \\" for name in option.names]
        rest = "'*:file:_files'" if command.name in ("import", "merge") else "'*:statement:'"
        arms.append(f"        {command.name})\n            _arguments \\\n" + "\n".join(lines) + f"\n                {rest}\n            ;;")
    return f"""#compdef tq
_tq_table() {{
    compset -P '*=' && _files
}}
_tq() {{
    local -a commands=(
{entries}
    )
    if (( CURRENT == 2 )); then
        commands+=('help:Prints the help of a command')
        _describe command commands
        return
    fi
    local command=$words[2]
    if [[ $command == help ]]; then
        _describe command commands
        return
    fi
    shift words
    (( CURRENT-- ))
    case $command in
{chr(10).join(arms)}
    esac
}}
_tq "$@"
"""


def fish_page(commands):
    """A script that completes commands, options, their values, and files."""
    names = " ".join(command.name for command in commands)
    lines = [f"complete -c tq -f -n '__fish_seen_subcommand_from help' -a '{names}'"]
    for command in commands:
        lines.append(f"complete -c tq -f -n __fish_use_subcommand -a {command.name} -d {quoted(command.about)}")
        for option in command.options:
            short = f" -s {option.short[1:]}" if option.short else ""
            listed = f" -x -a {quoted(' '.join(option.choices))}" if option.choices else " -r"
            value = listed if option.value else ""
            lines.append(f"complete -c tq -n '__fish_seen_subcommand_from {command.name}'{short} -l {option.long[2:]}{value} -d {quoted(option.about)}")
    return "\n".join(lines) + "\n"


def date_of(program):
    """The date of the last commit or, without git, of the program."""
    how = {"cwd": Path(__file__).parent, "stdout": subprocess.PIPE, "stderr": subprocess.DEVNULL}
    found = subprocess.run(["git", "log", "-1", "--format=%cs"], **how).stdout.decode().strip()
    return found or str(datetime.date.fromtimestamp(Path(program).stat().st_mtime))


def main():
    program, folder = sys.argv[1], Path(sys.argv[2])
    version = subprocess.run([program, "--version"], check=True, stdout=subprocess.PIPE).stdout.decode().strip()
    whole = command_of(program)
    names = [name for name, _ in entries(help_of(program), "Commands:", ENTRY) if name != "help"]
    commands = [command_of(program, name) for name in names]
    pages = {
        "tq.1": man_page(whole, commands, version, date_of(program)),
        "tq.bash": bash_page(whole, commands),
        "_tq": zsh_page(commands),
        "tq.fish": fish_page(commands),
    }
    folder.mkdir(parents=True, exist_ok=True)
    for name, page in pages.items():
        (folder / name).write_text(page)


if __name__ == "__main__":
    main()
