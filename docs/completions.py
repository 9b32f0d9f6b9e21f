#!/usr/bin/env python3
"""Makes the completions of bash, zsh and fish from the program's help texts: docs/completions.py PROGRAM [FOLDER]

FOLDER is share/ where none is named. The selftest compares the files there with what the help texts give now.
"""

import sys
from pathlib import Path

import man_page

BASH = "bash-completion/completions/dispatch"
ZSH = "zsh/site-functions/_dispatch"
FISH = "fish/vendor_completions.d/dispatch.fish"
MADE = "# Made by docs/completions.py from the help texts of dispatch. Not to be edited by hand."


def words_of(found):
    return " ".join(word for option in found.options for word in option.words)


def with_value(commands, is_file):
    """The words behind which a value comes: that of a file, or another one."""
    options = [option for found in commands for option in found.options if option.value and (option.value == "FILE") == is_file]
    return sorted({word for option in options for word in option.words})


def bash(commands, top):
    names = " ".join(found.name for found in commands)
    cases = "".join(f"        {found.name}) words='{words_of(found)}' ;;\n" for found in commands)
    other = "|".join(with_value(commands, is_file=False))
    files = "|".join(with_value(commands, is_file=True))
    return f"""{MADE}

_dispatch() {{
    local word=${{COMP_WORDS[COMP_CWORD]}} before=${{COMP_WORDS[COMP_CWORD - 1]}} words
    COMPREPLY=()
    case $before in
        {files})
            compopt -o filenames
            mapfile -t COMPREPLY < <(compgen -f -- "$word")
            return
            ;;
        {other}) return ;;
    esac
    if ((COMP_CWORD == 1)); then
        words='{names} help {" ".join(word for option in top for word in option.words)}'
    else
        case ${{COMP_WORDS[1]}} in
{cases.replace("        ", "            ")}            help) ((COMP_CWORD > 2)) || words='{names}' ;;
        esac
    fi
    mapfile -t COMPREPLY < <(compgen -W "$words" -- "$word")
}}
complete -F _dispatch dispatch
"""


def quoted(text):
    return text.replace("'", "'\\''")


def zsh_option(option):
    """An option as _arguments takes it: its words exclude one another, and its value has a kind."""
    does = quoted(option.does).replace("[", "\\[").replace("]", "\\]").replace(":", "\\:")
    value = f":{option.value}:{'_files' if option.value == 'FILE' else ''}" if option.value else ""
    if len(option.words) == 1:
        return f"'{option.words[0]}[{does}]{value}'"
    return f"'({' '.join(option.words)})'{{{','.join(option.words)}}}'[{does}]{value}'"


def zsh_argument(argument):
    """An argument as _arguments takes it: a second colon where it may be left out, a star where it may be there many times."""
    count = {"?": ":", "*": "*", "": ""}[argument.count]
    return f"'{count}:{argument.value}:'"


def zsh_command(found):
    rows = [*map(zsh_option, found.options), *map(zsh_argument, found.arguments)]
    return f"                {found.name})\n                    _arguments {' '.join(rows)}\n                    ;;\n"


def zsh(commands, top):
    names = "\n".join(f"        '{found.name}:{quoted(found.about)}'" for found in commands)
    return f"""#compdef dispatch
{MADE}

_dispatch() {{
    local curcontext=$curcontext state line
    local -a commands=(
{names}
        'help:Print help'
    )
    _arguments -C {" ".join(map(zsh_option, top))} '1: :->command' '*:: :->words'
    case $state in
        command) _describe -t commands command commands ;;
        words)
            case $line[1] in
{"".join(map(zsh_command, commands))}                help) ((CURRENT > 2)) || _describe -t commands command commands ;;
            esac
            ;;
    esac
}}

_dispatch "$@"
"""


def fish_quoted(text):
    return "'" + text.replace("\\", "\\\\").replace("'", "\\'") + "'"


def fish_option(option, condition):
    words = " ".join(f"-l {word[2:]}" if word.startswith("--") else f"-s {word[1:]}" for word in option.words)
    value = {None: "", "FILE": " -r -F"}.get(option.value, " -x")
    return f"complete -c dispatch -n '{condition}' {words}{value} -d {fish_quoted(option.does)}\n"


def fish(commands, top):
    names = " ".join(found.name for found in commands)
    first = "__fish_use_subcommand"
    lines = [f"{MADE}\n", "complete -c dispatch -f\n"]
    for found in commands:
        lines.append(f"complete -c dispatch -n {first} -a {found.name} -d {fish_quoted(found.about)}\n")
    lines.append(f"complete -c dispatch -n {first} -a help -d 'Print help'\n")
    lines += [fish_option(option, first) for option in top]
    lines.append(f"complete -c dispatch -n '__fish_seen_subcommand_from help' -a '{names}'\n")
    for found in commands:
        lines += [fish_option(option, f"__fish_seen_subcommand_from {found.name}") for option in found.options]
    return "".join(lines)


def completions(program):
    """The path of each file below share/, and its text."""
    commands = man_page.commands(program)
    top = [*man_page.options(man_page.paragraphs(man_page.said(program, "--help")), "Options:")]
    return {BASH: bash(commands, top), ZSH: zsh(commands, top), FISH: fish(commands, top)}


def main():
    if len(sys.argv) not in (2, 3):
        sys.exit(__doc__)
    folder = Path(sys.argv[2]) if sys.argv[2:] else Path(__file__).resolve().parent.parent / "share"
    for name, text in completions(sys.argv[1]).items():
        (folder / name).parent.mkdir(parents=True, exist_ok=True)
        (folder / name).write_text(text)


if __name__ == "__main__":
    main()
