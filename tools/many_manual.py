#!/usr/bin/env python3
"""Writes the manual page and the completions of citymerge-many, made of its own help, to standard output: a line
`==> NAME` begins each file.

Use: tools/many_manual.py
"""

import argparse
import os
import re
import sys

sys.dont_write_bytecode = True
ROOT = os.path.dirname(os.path.dirname(os.path.abspath(__file__)))
sys.path.insert(0, os.path.join(ROOT, "examples"))

import many_tiles


def escaped(text: str) -> str:
    """A text as roff prints it; `words` between backquotes are bold."""
    text = text.replace("\\", "\\e").replace("-", "\\-").replace("'", "\\(aq")
    return re.sub(r"`([^`]*)`", r"\\fB\1\\fR", text)


def released() -> str:
    """The day of the newest release, from the change log."""
    with open(os.path.join(ROOT, "CHANGELOG.md"), encoding="utf-8") as log:
        return re.search(r"^## \S+ \((\d{4}-\d\d-\d\d)\)$", log.read(), re.MULTILINE)[1]


def option_lines(action: argparse.Action) -> list[str]:
    names = [f"\\fB{escaped(name)}\\fR" for name in action.option_strings] or [f"\\fI{action.metavar}\\fR"]
    value = f"=\\fI{action.metavar}\\fR" if action.option_strings and action.metavar else ""
    return [".TP", ", ".join(names) + value, escaped(action.help)]


def table_lines(rows: tuple) -> list[str]:
    cells = [row.split("  ", 1) for row in rows]
    return [line for name, text in cells for line in (".TP", f"\\fB{name}\\fR", escaped(text))]


def page() -> list[str]:
    parser = many_tiles.argument_parser()
    lines = [f'.TH CITYMERGE\\-MANY 1 "{released()}" "citymerge {many_tiles.VERSION}" "User Commands"']
    lines += [".SH NAME", f"citymerge\\-many \\- {many_tiles.ABOUT[0].lower()}{many_tiles.ABOUT[1:-1]}"]
    lines += [".SH SYNOPSIS", "\\fBcitymerge\\-many\\fR [\\fIOPTIONS\\fR] [\\fB\\-\\-\\fR] [\\fITILE\\fR]..."]
    lines += [".SH DESCRIPTION"]
    for paragraph in many_tiles.DESCRIPTION:
        lines += [".PP", *map(escaped, paragraph.splitlines())]
    lines += [".SH OPTIONS"]
    for number, group in enumerate(group for group in parser._action_groups if group._group_actions):
        if number:
            lines += [".SS " + escaped(group.title.split(",")[0])]
        for action in group._group_actions:
            lines += option_lines(action)
    lines += [".SH EXIT STATUS", *table_lines(many_tiles.STATUSES)]
    lines += [".SH ENVIRONMENT", *table_lines((many_tiles.ENVIRONMENT,))]
    lines += [".SH EXAMPLES", ".nf", *map(escaped, many_tiles.EXAMPLES), ".fi"]
    lines += [".SH FILES", ".TP", "share/doc/citymerge/GUIDE.md", "Plans, on one machine and on a cluster, step by step."]
    lines += [".SH SEE ALSO", ".BR citymerge (1),", ".BR make (1)"]
    return lines


BASH = """\
_citymerge_many() {
    COMPREPLY=()
    [[ ${COMP_WORDS[COMP_CWORD]} == -* ]] || return
    COMPREPLY=($(compgen -W '%s' -- "${COMP_WORDS[COMP_CWORD]}"))
    [[ ${COMPREPLY[*]} == *= ]] && compopt -o nospace
}
complete -o default -F _citymerge_many citymerge-many"""


def options() -> list[argparse.Action]:
    return [action for action in many_tiles.argument_parser()._actions if action.option_strings]


def is_name(action: argparse.Action) -> bool:
    return action.metavar in ("FILE", "FOLDER")


def told(action: argparse.Action, mark: str) -> str:
    """What an option does, as the first sentence of its help, with this in place of each mark that ends a text."""
    return re.match(r"[^.]*", action.help)[0].replace("`", "").replace("'", mark)


def bash() -> list[str]:
    return [BASH % " ".join([action.option_strings[-1] + ("=" if action.metavar else "") for action in options()])]


def zsh() -> list[str]:
    lines = ["#compdef citymerge-many", "_arguments -s \\"]
    for action in options():
        value = ":%s:%s" % (action.metavar.lower(), "_files" if is_name(action) else "") if action.metavar else ""
        for name in action.option_strings:
            lines.append("    '%s%s[%s]%s' \\" % (name, "=" if action.metavar else "", told(action, "'\\''"), value))
    return lines + ["    '*:tile:_files'"]


def fish() -> list[str]:
    lines = []
    for action in options():
        names = "".join([" -l %s" % name[2:] if name.startswith("--") else " -s %s" % name[1:] for name in action.option_strings])
        value = (" -r -F" if is_name(action) else " -x") if action.metavar else ""
        lines.append("complete -c citymerge-many%s%s -d '%s'" % (names, value, told(action, "\\'")))
    return lines


FILES = {"citymerge-many.1": page, "citymerge-many.bash": bash, "_citymerge-many": zsh, "citymerge-many.fish": fish}

if __name__ == "__main__":
    for name, lines in FILES.items():
        print("\n".join(["==> " + name, *lines()]))
