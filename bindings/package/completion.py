"""Writes the completion of bash for a program, from what its `--help` says."""

import re
import subprocess

SCRIPT = """# bash completion for {name}; made from its --help
_{name}()
{{
    local word=${{COMP_WORDS[COMP_CWORD]}} before=${{COMP_WORDS[COMP_CWORD-1]}} words command=
    COMPREPLY=()
    [[ $COMP_CWORD -gt 1 ]] && command=${{COMP_WORDS[1]}}
    case $command in
{cases}
    *) words="{commands}" ;;
    esac
    case "$command $before" in
{takers}
    esac
    COMPREPLY=($(compgen -W "$words" -- "$word"))
}}
complete -o default -F _{name} {name}
"""
OPTION = re.compile(r"^ +(?:(-\w), )?(--[a-z-]+)( <.*?>)?", re.M)


def help_of(program, *words):
    """What the program prints for `WORDS --help`."""
    return subprocess.run([program, *words, "--help"], capture_output=True, text=True, check=True).stdout


def commands_of(text):
    """The commands that a help text lists, but `help`."""
    block = re.search(r"^Commands:\n((?:  .*\n)+)", text, re.M)
    found = re.findall(r"^  (\w[\w-]*)", block[1], re.M) if block else []
    return [name for name in found if name != "help"]


def options_of(text):
    """The options of a help text: all their spellings, and those that a value follows."""
    found = OPTION.findall(text)
    spellings = [word for short, long, _ in found for word in (long, short) if word]
    return spellings, [long for _, long, value in found if value]


def bash(program, name):
    """The completion script of the program."""
    top = help_of(program)
    commands = commands_of(top)
    cases, takers = [], []
    for command in commands:
        spellings, with_value = options_of(help_of(program, command))
        cases.append(f'    {command}) words="{" ".join(spellings)}" ;;')
        if with_value:
            patterns = "|".join(f'"{command} {option}"' for option in with_value)
            takers.append(f"    {patterns}) return ;;")
    cases.append(f'    help) words="{" ".join(commands)}" ;;')
    first = " ".join([*commands, "help", *options_of(top)[0]])
    return SCRIPT.format(name=name, cases="\n".join(cases), takers="\n".join(takers), commands=first)
