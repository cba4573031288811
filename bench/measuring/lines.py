"""Lines of scripts that several measures make, and the kinds of scripts that are asked for by their names."""

import argparse


def sessions(clients, flags="rwps"):
    """These clients, or so many from 1 on, open their sessions."""
    numbers = range(1, clients + 1) if isinstance(clients, int) else clients
    return [f"session {client} {client} {client} - allow {flags}" for client in numbers]


def opened(client, inodes, how="r"):
    """A client opens each of these inodes."""
    return [f"open {client} {inode} {how}" for inode in inodes]


def text(lines):
    return "".join(f"{line}\n" for line in lines)


def kinds_asked(parser, kinds):
    """Lets a command take the names of kinds, or none for all of them."""
    by_name = {kind.name: kind for kind in kinds}

    def named(word):
        if word not in by_name:
            raise argparse.ArgumentTypeError(f"no kind is called {word}: {', '.join(by_name)}")
        return by_name[word]

    parser.add_argument("kinds", nargs="*", type=named, default=list(kinds), metavar="KIND", help=f"{', '.join(by_name)} (default: all)")
