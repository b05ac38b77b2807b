"""Writes what is made of the table of commands and options, python/paver/commands.py: the table of commands in docs/USING.md,
the synopsis of the manual page (and its version, from python/paver/version.py), and the completions of three shells; and, of
crates.txt, the table of crates in docs/ARCHITECTURE.md.

    python3 -m tests.generators.command_tables      or `make tables`
"""
from __future__ import annotations

import re

from paver.commands import COMMANDS, OPTIONS, Command, Option
from paver.options import KEPT_SETTINGS
from paver.version import VERSION
from tests.generators import crate_table
from tests.runners.running import TOP

USING, MANUAL, CODE = TOP / "docs" / "USING.md", TOP / "docs" / "paver.1", TOP / "docs" / "ARCHITECTURE.md"
ROWS = "|---|---|---|\n| `check SYSTEM`", "\n\n## Options"  # around the rows: the first row's beginning is part of them
SYNOPSIS = ".SH SYNOPSIS\n", ".SH DESCRIPTION\n"
SYSTEMS = '_files -g "*.mbx"'


def used(name: str) -> list[str]:
    """The commands that take an option."""
    return [command for command, told in COMMANDS.items() if name in told.options]


# ---- documents

def row(name: str, told: Command) -> str:
    """A command's row of the table in docs/USING.md: `settings` are all that belong to a paving."""
    others = [f"`--{option}`" for option in told.options if option not in KEPT_SETTINGS]
    settings = "settings" if "form" in told.options else "settings without `--form`"
    options = ", ".join([settings] * (not {*KEPT_SETTINGS}.isdisjoint(told.options)) + others)
    return f"| `{f'{name} {told.files}'.strip()}` | {told.does} | {options} |".replace("|  |", "| |")


def synopsis(name: str, told: Command) -> str:
    """A command's lines of the manual page's synopsis: what it needs, its settings, and what else it may have."""
    lines = [f".B paver {name}"] + [f".I {told.files}"] * bool(told.files)
    lines += [line for option in told.needs for line in (f".B --{option}", f".I {OPTIONS[option].value}")]
    of_all = KEPT_SETTINGS if {*KEPT_SETTINGS} <= {*told.options} else ()
    lines += [".RI [ SETTINGS ]"] * bool(of_all)
    others = [option for option in told.options if option not in (*of_all, *told.needs)]
    lines += [line for option in others for line in (f".RB [ --{option}", f".IR {OPTIONS[option].value} ]")]
    return "\n".join(lines).replace("-", "\\-") + "\n"


def put_between(text: str, ends: tuple[str, str], middle: str) -> str:
    """A text with another middle between the only place of one end and the next of the other."""
    before, found, rest = text.partition(ends[0])
    _, also, after = rest.partition(ends[1])
    if not (found and also) or ends[0] in rest:
        raise ValueError(f"{ends[0]!r} and {ends[1]!r} don't stand in the text once")
    return before + ends[0] + middle + ends[1] + after


def using(text: str) -> str:
    rows = "\n".join(row(name, told) for name, told in COMMANDS.items())
    return put_between(text, ROWS, rows[len(ROWS[0].partition("\n")[2]):])


def manual(text: str) -> str:
    text = re.sub(r'^(\.TH PAVER .* "paver )[0-9.]+"', rf'\g<1>{VERSION}"', text, flags=re.M)
    return put_between(text, SYNOPSIS, ".br\n".join(synopsis(name, told) for name, told in COMMANDS.items()))


# ---- completions

def bash_values() -> str:
    """The lines that complete the values of options, those alike in one."""
    lines: dict[str, list[str]] = {}
    for name, told in OPTIONS.items():
        words = " ".join(told.choices or told.offers)
        offered = f'-W "{words}"' if words else "-f" if told.is_file else ""
        work = f"mapfile -t COMPREPLY < <(compgen {offered} -- \"$word\"); return" if offered else "return"
        lines.setdefault(work, []).append(f"--{name}")
    return "\n".join(f"        {'|'.join(names)}) {work} ;;" for work, names in lines.items())


def bash_options(name: str, told: Command) -> str:
    words = " ".join(f"--{option}" for option in told.options)
    return f'            {name}) mapfile -t COMPREPLY < <(compgen -W "{words}" -- "$word") ;;'


def bash() -> str:
    options = "\n".join(bash_options(name, told) for name, told in COMMANDS.items() if told.options)
    return f"""# Completion of paver's words for bash, made by tests/generators/command_tables.py.
_paver() {{
    local word=${{COMP_WORDS[COMP_CWORD]}} before=${{COMP_WORDS[COMP_CWORD-1]}} command=${{COMP_WORDS[1]}}
    COMPREPLY=()
    # `--name=value` comes as three words
    if [ "$word" = "=" ]; then
        word=
    elif [ "$before" = "=" ]; then
        before=${{COMP_WORDS[COMP_CWORD-2]}}
    fi
    if [ "$COMP_CWORD" -eq 1 ]; then
        mapfile -t COMPREPLY < <(compgen -W "{' '.join(COMMANDS)}" -- "$word")
        return
    fi
    case $before in
{bash_values()}
    esac
    if [[ $word == -* ]]; then
        case $command in
{options}
        esac
        return
    fi
    mapfile -t COMPREPLY < <(compgen -f -- "$word")
}}
complete -o filenames -F _paver paver
"""


def zsh_option(name: str, told: Option) -> str:
    """What zsh is told of an option: its words, its value, and what completes that."""
    words = " ".join(told.choices or told.offers[:1]).replace("(", r"\(").replace(")", r"\)")
    kind = "number" if told.value.startswith(("N", "D")) and told.value != "NAME" else told.value.lower()
    value = f":({words})" if words else ":_files" if told.is_file else ""
    return f"local o_{name}='--{name}=[{told.says}]:{kind}{value}'"


def zsh_command(name: str, told: Command) -> str:
    options = [f"$o_{option}" for option in told.options]
    files = {"": "'1:command:'", "SYSTEM": f"'2:system:{SYSTEMS}'", "SYSTEM PAVING": f"'2:system:{SYSTEMS}' '3:paving:_files'",
             "SYSTEM PAVING..": f"'2:system:{SYSTEMS}' '*:paving:_files'"}[told.files]
    return f"  {name}) _arguments {' '.join([*options, files])} ;;"


def zsh() -> str:
    options = "\n".join(zsh_option(name, told) for name, told in OPTIONS.items())
    commands = "\n".join(f"    '{name}:{told.says}'" for name, told in COMMANDS.items())
    cases = "\n".join(zsh_command(name, told) for name, told in COMMANDS.items())
    return f"""#compdef paver
# Completion of paver's words for zsh, made by tests/generators/command_tables.py.
{options}
_paver_command() {{
  local -a commands
  commands=(
{commands}
  )
  _describe command commands
}}
if (( CURRENT == 2 )); then
  _paver_command
  return
fi
case $words[2] in
{cases}
esac
"""


def capital(text: str) -> str:
    return text[0].upper() + text[1:]


def fish_option(name: str, told: Option) -> str:
    words = " ".join(told.choices) or "".join(f"'{word}'" for word in told.offers[:1])
    offered = f" -a {chr(34) + words + chr(34) if told.offers else chr(39) + words + chr(39)}" if words else ""
    return f"complete -c paver -n \"__fish_seen_subcommand_from {' '.join(used(name))}\" -l {name} " \
           f"-{'r' if told.is_file else 'x'}{offered} -d '{capital(told.says)}'"


def fish() -> str:
    none = 'complete -c paver -n "not __fish_seen_subcommand_from $commands"'
    commands = "\n".join(f"{none} -a {name} -d '{capital(told.says)}'" for name, told in COMMANDS.items())
    options = "\n".join(fish_option(name, told) for name, told in OPTIONS.items())
    bare = "".join(f'complete -c paver -n "__fish_seen_subcommand_from {name}" -f\n'
                   for name, told in COMMANDS.items() if not told.files)
    return f"""# Completion of paver's words for fish, made by tests/generators/command_tables.py.
set -l commands {' '.join(COMMANDS)}
{none} -f
{commands}
{bare}{options}
"""


def made() -> dict[str, str]:
    """Each file that is made, whole or in part, and its text."""
    folder = "completions"
    return {"docs/USING.md": using(USING.read_text()), "docs/paver.1": manual(MANUAL.read_text()),
            "docs/ARCHITECTURE.md": crate_table.architecture(CODE.read_text()), f"{folder}/paver.bash": bash(),
            f"{folder}/_paver": zsh(), f"{folder}/paver.fish": fish()}


def main() -> None:
    for name, text in made().items():
        if (TOP / name).read_text() != text:
            (TOP / name).write_text(text)
            print(f"written: {name}")


if __name__ == "__main__":
    main()
