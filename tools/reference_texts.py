"""The texts that are written from the table of reference.py."""
import textwrap

from reference import (ALL, COMMANDS, FAULTS, FILES, RULES, SCRIPT_COMMANDS, STATUSES, VALUES,
                       VERSION, WITH_ALL, said_of)

WIDTH = 80


def entry(name, text, indent):
    """A name, and its text from the column `indent` on."""
    return textwrap.fill(text, WIDTH, initial_indent=name.ljust(indent),
                         subsequent_indent=" " * indent, break_on_hyphens=False) + "\n"


def usages(commands=tuple(SCRIPT_COMMANDS.values())):
    return "".join(f"{'usage:' if not number else '      '} foldgneiss {command.usage}\n"
                   for number, command in enumerate(commands))


def command_entries(commands):
    indent = max(8, *(len(command.name) + 1 for command in commands))
    return [entry(command.name, command.about, indent)
            + f"{'':{indent + 2}}foldgneiss {command.example}\n" for command in commands]


def argument_text(word):
    if word in VALUES:
        return VALUES[word].about
    return f"{FILES[word].about}; at most {FILES[word].limit} bytes"


def words_of(commands):
    words = [word for command in commands for word in command.all_words]
    return [word for word in [*FILES, *VALUES] if word in words]


def arguments_of(commands):
    return "".join(entry(f"  {word.upper()}", argument_text(word), 11)
                   for word in words_of(commands))


def kinds_of(commands):
    """The kinds of files that some commands read."""
    return [kind for kind in FILES if any(kind in command.files for command in commands)]


def said_words(commands):
    """The commands and their arguments, of which a part of a text may be."""
    return {word for command in commands for word in (command.name, *command.all_words)}


def faults_by_meaning(commands):
    """Pairs of a fault's kind and the files in which it has one meaning, with this meaning."""
    meanings = {}
    for kind in kinds_of(commands):
        for fault, text in FAULTS[kind].items():
            meaning = said_of(said_words(commands), text)
            meanings.setdefault((fault, meaning), []).append(kind)
    return meanings.items()


def faults_of(commands):
    """The faults of the files of some commands, those that several share first."""
    groups, kinds = {}, kinds_of(commands)
    for (fault, meaning), names in faults_by_meaning(commands):
        groups.setdefault(tuple(names), []).append((fault, meaning))
    lines = []
    for names, faults in sorted(groups.items(), key=lambda group: -len(group[0])):
        is_each = len(names) > 3 and names == tuple(kinds)
        lines.append(f"  of {'each file' if is_each else ', '.join(names)}\n")
        lines += [entry(f"    {fault}", meaning, 16) for fault, meaning in faults]
    return "".join(lines)


def rules():
    return "".join(entry(f"  {rule}", meaning, 6) for rule, meaning in RULES.items())


def cause_of(status, words=None):
    line = f" ({status.line})" if status.line else ""
    return said_of(words, status.cause) + line


def codes_of(commands):
    """The exit statuses of a program with these commands."""
    names = {command.name for command in commands}
    others = {FILES[kind].status for kind in {*FILES} - {*kinds_of(commands)}}
    return [code for code, status in STATUSES.items()
            if code not in others and (not status.commands or names & {*status.commands})]


def statuses(commands):
    return "".join(entry(f"  {code}", cause_of(STATUSES[code], said_words(commands)), 6)
                   for code in codes_of(commands))


def help_on(commands):
    """What --help says of some commands."""
    has_resets = any("script" in command.files for command in commands)
    return "\n".join([
        usages(commands),
        "\n".join(command_entries(commands)),
        "  --help     prints this\n  --version  prints the version\n",
        "Arguments, files in the order in which they are read:\n" + arguments_of(commands),
        *(["Rules (reset S R):\n" + rules()] if has_resets else []),
        "Faults (bad FILE: line L: K), the first of the first faulty file:\n"
        + faults_of(commands),
        "Exit status, and the line on standard error:\n" + statuses(commands),
    ])


def help_text():
    """What ./foldgneiss --help says: of the commands of all programs."""
    return help_on(list(SCRIPT_COMMANDS.values()))


def program_help(program):
    """What --help of one program says."""
    return help_on([command for command in COMMANDS.values() if command.program == program])


def command_help(name):
    """What --help says of one command."""
    command = SCRIPT_COMMANDS[name]
    parts = [f"usage: foldgneiss {command.usage}\n", *command_entries([command]),
             "Arguments:\n" + arguments_of([command])]
    if command.files:
        parts.append("Faults:\n" + faults_of([command]))
    return "\n".join(parts)


def table(*rows):
    """A table of Markdown, its first row the heads."""
    lines = [f"| {' | '.join(row)} |".replace("|  |", "| |") for row in rows]
    lines.insert(1, "|" + "---|" * len(rows[0]))
    return "".join(line + "\n" for line in lines)


def command_table():
    return table(("Command", "Prints"),
                 *((f"`{command.usage}`", command.prints)
                   for command in SCRIPT_COMMANDS.values()))


def status_table():
    return table(("Code", "Line on standard error", "Cause", "Remedy"),
                 *((str(code), f"`{status.line}`" if status.line else "none",
                    said_of(None, status.cause), said_of(None, status.remedy))
                   for code, status in STATUSES.items()))


def roff(text):
    """A text as the man macros take it."""
    text = text.replace("\\", "\\e").replace("-", "\\-")
    return "".join(f"\\&{line}\n" if line[:1] in (".", "'") else f"{line}\n"
                   for line in text.splitlines())


def man_page():
    """docs/foldgneiss.1, for the command man."""
    def tagged(name, *texts):
        return f".TP\n.B {roff(name)}" + "".join(map(roff, texts))

    def section(name, *parts):
        return f".SH {name}\n" + "".join(parts)
    commands = SCRIPT_COMMANDS.values()
    faults = (tagged(fault, f"{meaning} ({', '.join(kinds)})")
              for (fault, meaning), kinds in faults_by_meaning(commands))
    return "".join([
        f'.TH FOLDGNEISS 1 "" "foldgneiss {VERSION}"\n',
        section("NAME", roff("foldgneiss - an attested MSP430 microcontroller, emulated, with its "
                             "verifier")),
        section("SYNOPSIS", *(f".B foldgneiss {roff(command.usage)}.br\n" for command in commands)),
        section("COMMANDS", *(tagged(command.name, command.about) + ".br\n"
                              + roff(f"foldgneiss {command.example}") for command in commands)),
        section("ARGUMENTS", *(tagged(word.upper(), argument_text(word))
                               for word in words_of(commands))),
        section("RULES", *(tagged(rule, meaning) for rule, meaning in RULES.items())),
        section("FAULTS", *faults),
        section("EXIT STATUS", *(tagged(str(code), cause_of(status))
                                 for code, status in STATUSES.items())),
    ])


def completion():
    """docs/foldgneiss.bash: completion in Bash, of the commands and of the names of files."""
    names = " ".join(SCRIPT_COMMANDS)
    return f"""\
# Completion in Bash: source docs/foldgneiss.bash
_foldgneiss() {{
    local word=${{COMP_WORDS[COMP_CWORD]}}
    if [ "$COMP_CWORD" -eq 1 ]; then
        mapfile -t COMPREPLY < <(compgen -W '{names} build folder help' -- "$word")
    elif [ "${{COMP_WORDS[1]}}" = help ]; then
        mapfile -t COMPREPLY < <(compgen -W '{names} build folder' -- "$word")
    elif [ "$COMP_CWORD" -eq 2 ] && [[ ${{COMP_WORDS[1]}} =~ ^({"|".join(WITH_ALL)})$ ]]; then
        mapfile -t COMPREPLY < <(compgen -f -W '{ALL}' -- "$word")
    else
        mapfile -t COMPREPLY < <(compgen -f -- "$word")
    fi
}}
complete -o filenames -F _foldgneiss foldgneiss ./foldgneiss
"""
