"""A command that has others below it, as tools/dev and bench/bench have."""

import argparse
import sys


def layout(prog):
    """How a help is laid out: its text as it stands in the file, and beside each word what it means."""
    return argparse.RawDescriptionHelpFormatter(prog, max_help_position=24, width=140)


def listed(groups, above=""):
    """The lines that name the commands, group by group; or those below one of them."""
    found = {title: {name: what for name, (_, what) in commands.items() if name.startswith(above)} for title, commands in groups.items()}
    width = max(len(name) for commands in groups.values() for name in commands) + 2
    parts = ["\n".join([f"{title}:", *(f"  {name:{width}}{what}" for name, what in commands.items())]) for title, commands in found.items() if commands]
    return "\n\n".join(parts)


def parser(prog, doc, groups):
    """The parser of a command. In each group stand names of commands, of one word or two, each with its module and what it does in a
    line. A module has `arguments`, which says to a parser what the command takes, and `main`, which answers the status."""
    top = argparse.ArgumentParser(prog=prog, description=doc, epilog=listed(groups), formatter_class=layout)
    below = {"": top.add_subparsers(metavar="COMMAND", required=True)}
    for name, (module, _) in (it for commands in groups.values() for it in commands.items()):
        above, _, last = name.rpartition(" ")
        if above not in below:
            middle = below[""].add_parser(above, epilog=listed(groups, f"{above} "), formatter_class=layout)
            below[above] = middle.add_subparsers(metavar="COMMAND", required=True)
        words = below[above].add_parser(last, description=module.__doc__, formatter_class=layout)
        module.arguments(words)
        words.set_defaults(main=module.main)
    return top


def run(prog, doc, groups):
    """Does what the words of the command line ask for, and ends with its status."""
    given = parser(prog, doc, groups).parse_args()
    sys.exit(given.main(given))
