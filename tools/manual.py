#!/usr/bin/env python3
"""Makes the man page of `pair` and completions of its commands and options for bash and zsh, from what `./pair help` prints; the
statuses are those of docs/COMMANDS.md.

usage: tools/manual.py man|bash|zsh
"""

from __future__ import annotations

import re
import sys

from option_tables import INNER, PAGE, Option, commands, help_of, rows
from options import BEFORE, READERS

# Options whose value is a file, or ends with one after `=`; and words of options whose help does not list them.
FILES = {"--load", "--setup", "--disk", "--attach", "--save-disk", "--do"}
WORDS = {"--lines": "row here", "--host": "here"}
# The file that a command reads in place of standard input, as _arguments of zsh has it.
FILE = ("'1:file:_files'",)
# What a list of possible values looks like, and not a default alone.
LISTED = re.compile(r"[a-z]+(?:, [a-z]+)+")


def about(command: str) -> str:
    """What a command does."""
    return re.search(rf"^  {command} +(.*)$", help_of(), re.MULTILINE)[1]


def statuses() -> list[tuple[str, str]]:
    """The statuses, and when each comes, as the page of the options has them."""
    rows = PAGE.read_text(encoding="utf-8").split("\n## Statuses\n")[1]
    return re.findall(r"^\| (\d[^|]*?) \| ([^|]+?) \|", rows, re.MULTILINE)


def outer() -> list[tuple[Option, list[str]]]:
    """The options that a user gives, each with the commands that take it; `host` is started by others."""
    return [(it, takers) for it, takers in rows() if name_of(it) not in INNER]


def name_of(option: Option) -> str:
    return option.given.split()[0]


def words_of(option: Option) -> str:
    """The words that the value of an option may be, if there are only some."""
    found = LISTED.match(option.values)
    return WORDS.get(name_of(option)) or (found[0].replace(",", "") if found else "")


def plain(text: str) -> str:
    """A text as a page has it, without what a table needs."""
    return text.replace("\\|", "|").replace("\\\\", "\\")


def roff(text: str) -> str:
    """A text as roff takes it."""
    text = text.replace("\\", "\\e").replace("-", "\\-")
    return f"\\&{text}" if text[:1] in (".", "'") else text


def man(date: str = "", version: str = "") -> str:
    """The man page."""
    listed = commands()
    found = [f'.TH PAIR 1 "{date}" "{version}" "User Commands"', ".SH NAME", f"pair \\- {roff('two hosts that run one Altair 8800 in lockstep')}"]
    found += [".SH SYNOPSIS", ".B pair", f"[{roff('|'.join(BEFORE))}]", ".I COMMAND", "[\\fIOPTION\\fR ..]", "[\\fIFILE\\fR]"]
    found += [".br", ".B pair help", "[\\fICOMMAND\\fR]", ".br", ".B pair \\-\\-version"]
    found += [".SH COMMANDS"]
    for it in listed:
        found += [".TP", f".B {it}", roff(about(it)) + "."]
    found += [".PP", roff(f"A FILE after {', '.join(READERS)} is read in place of standard input."), ".SH OPTIONS"]
    for word, what in BEFORE.items():
        found += [".TP", f".B {roff(word)}", roff(f"before the command: {what}.")]
    for option, takers in outer():
        values = f" ({option.values})" if option.values else ""
        found += [".TP", f".B {roff(option.given)}", roff(f"{', '.join(takers)}: {plain(option.text)}{values}.")]
    found += [".SH EXIT STATUS"]
    for status, when in statuses():
        found += [".TP", f".B {roff(status)}", roff(f"{when}.")]
    found += [".SH EXAMPLES", ".nf", *map(roff, EXAMPLES), ".fi"]
    found += [".SH SEE ALSO", roff("The pages in the folder docs of a release, or in PREFIX/lib/pair/docs: CONSOLE.md, HOSTS.md, SCRIPTS.md and others.")]
    return "\n".join(found) + "\n"


EXAMPLES = (
    "pair console                                  an Altair at your terminal; kill its hosts",
    "pair console --host here --host alpha         one host here, one where ssh leads",
    "pair script < failover.script                 a scripted failover",
)


def taken_by(command: str) -> list[Option]:
    return [it for it, takers in outer() if command in takers]


def bash_values() -> str:
    """What bash does about the values of options, by their names."""
    words = {name_of(it): words_of(it) for it, _ in outer() if " " in it.given}
    rows = [f'    {it}) COMPREPLY=($(compgen -W "{some}" -- "$word")); return ;;' for it, some in sorted(words.items()) if some]
    others = "|".join(sorted(it for it, some in words.items() if not some and it not in FILES))
    return "\n".join([*rows, f"    {others}) return ;;"])


def bash() -> str:
    """Completions for bash."""
    cases = "\n".join(f'    {it}) words="{" ".join(sorted({name_of(o) for o in taken_by(it)}))}" ;;' for it in commands())
    return f"""\
# Completions of pair for bash.
_pair() {{
  local IFS=$' \\t\\n' word=${{COMP_WORDS[COMP_CWORD]}} at=$COMP_CWORD words=
  COMPREPLY=()
  # What stands on both sides of `=` are words of their own. The option is before them, or the first of them.
  if [ "$word" = = ]; then
    word= at=$((COMP_CWORD - 1))
  elif [ "${{COMP_WORDS[COMP_CWORD - 1]}}" = = ]; then
    at=$((COMP_CWORD - 2))
  fi
  local option=${{COMP_WORDS[at - 1]}}
  [[ $at = "$COMP_CWORD" || ${{COMP_WORDS[at]}} != --* ]] || option=${{COMP_WORDS[at]}}
  case $option in
    {"|".join(sorted(FILES))}) local IFS=$'\\n'; COMPREPLY=($(compgen -f -- "$word")); compopt -o filenames 2>/dev/null; return ;;
{bash_values()}
  esac
  local first=1
  while [[ ${{COMP_WORDS[first]}} =~ ^({"|".join(BEFORE)})$ && $first -lt $COMP_CWORD ]]; do
    first=$((first + 1))
  done
  if [ "$COMP_CWORD" = "$first" ]; then
    COMPREPLY=($(compgen -W "{" ".join(commands())} help --version {" ".join(BEFORE)}" -- "$word"))
    return
  fi
  case ${{COMP_WORDS[first]}} in
    help) words="{" ".join(commands())}" ;;
{cases}
  esac
  COMPREPLY=($(compgen -W "$words" -- "$word"))
  case ${{COMP_WORDS[first]}} in
    {"|".join(READERS)})
      local IFS=$'\\n'
      COMPREPLY+=($(compgen -f -- "$word"))
      compopt -o filenames 2>/dev/null ;;
  esac
}}
complete -F _pair pair
"""


def zsh_text(text: str, special: str) -> str:
    """A text as zsh has it between single quotes, where these characters would end it; a description is read twice."""
    return re.sub(f"[{special}]", r"\\\g<0>", text.replace("\\", "\\" * 3)).replace("'", "")


def zsh_option(option: Option) -> str:
    """An option as _arguments of zsh has it."""
    name, _, value = option.given.partition(" ")
    files = '{compset -P "*="; _files}' if "=" in value else "_files"
    what = files if name in FILES else f"({words_of(option)})" if words_of(option) else " "
    repeats = "*" if name in FILES | {"--host", "--remote", "--type", "--stop", "--memory"} else ""
    return f"'{repeats}{name}{'=' * bool(value)}[{zsh_text(plain(option.text), ']')}]" + (f":{zsh_text(value, ':')}:{what}'" if value else "'")


def zsh() -> str:
    """Completions for zsh."""
    listed = "\n".join(f"    '{it}:{zsh_text(about(it), ':')}'" for it in commands())
    cases = "\n".join(f"    {it}) _arguments {' '.join([*map(zsh_option, taken_by(it)), *FILE * (it in READERS)])} ;;" for it in commands() if taken_by(it))
    before = "\n".join(f"    '{word}:{zsh_text(what[0].upper() + what[1:], ':')}'" for word, what in BEFORE.items())
    return f"""\
#compdef pair
# Completions of pair for zsh.
local -a commands
commands=(
{listed}
    'help:Prints help, also of a command'
    '--version:Prints the commit, and whether the program was proved'
{before}
)
while (( CURRENT > 2 )) && [[ $words[2] == ({"|".join(BEFORE)}) ]]; do
  shift words
  (( CURRENT-- ))
done
if (( CURRENT == 2 )); then
  _describe command commands
else
  local command=$words[2]
  shift words
  (( CURRENT-- ))
  case $command in
    help) _describe command commands ;;
{cases}
  esac
fi
"""


KINDS = {"man": man, "bash": bash, "zsh": zsh}

if __name__ == "__main__":
    if len(sys.argv) != 2 or sys.argv[1] not in KINDS:
        print(__doc__.strip())
        sys.exit(0 if sys.argv[1:] in (["-h"], ["--help"]) else 2)
    print(KINDS[sys.argv[1]](), end="")
