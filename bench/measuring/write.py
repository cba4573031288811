"""Writes what the other commands give their programs to read, and runs nothing."""

import sys
from pathlib import Path

from . import capbench, cluster, scripted, time_events


def write_grants(given):
    count, depth, kind = given.shape.split("-")
    print(capbench.grants(int(count), int(depth), kind))


def write_script(given):
    sys.stdout.write(scripted.texts(given.work, given.times)[0])


def write_events(given):
    sys.stdout.write(time_events.script(given.files))


def write_cluster(given):
    given.folder.mkdir(parents=True, exist_ok=True)
    cluster.write(given.folder, given.inodes)


def arguments(parser):
    what = parser.add_subparsers(title="what is written", metavar="WHAT", required=True)
    grants = what.add_parser("grants", help="the text of grants of a verdict")
    grants.add_argument("shape", metavar="SHAPE", help="as 4-8-ids: four grants on paths of eight names, with ids, or `plain`")
    grants.set_defaults(write=write_grants)
    script = what.add_parser("script", help="the script in which work on entries is done so many times")
    script.add_argument("work", metavar="WORK", help="as open-100 or lookup-100-deep")
    script.add_argument("times", type=int, metavar="N")
    script.set_defaults(write=write_script)
    events = what.add_parser("events", help="the script of `time events`; it runs capd for the numbers that are acknowledged")
    events.add_argument("files", type=int, metavar="FILES")
    events.set_defaults(write=write_events)
    texts = what.add_parser("cluster", help="auth.json, sessions.json and tree.json of a cluster with so many inodes")
    texts.add_argument("folder", type=Path, metavar="FOLDER")
    texts.add_argument("inodes", type=int, metavar="INODES")
    texts.set_defaults(write=write_cluster)


def main(given):
    given.write(given)
    return 0
