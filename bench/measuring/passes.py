"""The first calls of passes behind a long history, as lines of `capd serve`."""

from . import counting
from .lines import sessions, text
from .places import CAPD

# A script has at most so many clients behind its line `threads`, each with a pass of its own.
CLIENTS = 31


def first_call(rows):
    """The instructions of the first call of a pass, with its thread, behind so many rows of another pass."""
    before = sessions(1) + ["poll 1 1"] * rows
    calls = ["threads", *(f"poll {client} 1" for client in range(2, CLIENTS + 2))]
    whole, _ = counting.counted([CAPD, "serve"], text(before + calls))
    without, _ = counting.counted([CAPD, "serve"], text(before))
    return (whole - without) / CLIENTS
