"""The tree of an MDS with many inodes as the MDS prints it, and the sessions and the auth list that belong to it.

The tree has a directory for each of fifty clients, which may write there alone, and in it others of twenty files each. Every fourth file
is held by a client, and one of five of these by another one than its directory is for. Each inode has the keys, the kinds of values and
the layout of what `dump tree` prints; what stands there is made up.
"""

import json

CLIENTS = 50
FILES = 20
FIRST = 1 << 40
HEAD = 18446744073709551614
STAMP = "2026-11-02T08:15:30.250000+0000"
ZERO = "0.000000"


def lock(state):
    """A lock as it is printed: one at rest has no fields."""
    if state is None:
        return {}
    counts = {f"num_{kind}locks": 0 for kind in ("rd", "wr", "x")}
    return {"gather_set": [], "state": state, "is_leased": False, **counts, "xlock_by": {}}


def object_state(pins):
    """What the MDS prints of each thing in its cache."""
    return {
        "is_auth": True,
        "auth_state": {"replicas": {}},
        "replica_state": {"authority": [0, -2], "replica_nonce": 0},
        "auth_pins": 0,
        "is_frozen": False,
        "is_freezing": False,
        "pins": pins,
        "nref": sum(pins.values()),
    }


def usage(files, directories):
    counts = {"rbytes": 0, "rfiles": files, "rsubdirs": directories, "rsnaps": 0}
    return {"version": 0, **counts, "rctime": STAMP if directories else ZERO}


def dentry(path, inode):
    return {
        "path": path,
        "path_ino": 1,
        "snap_first": 2,
        "snap_last": HEAD,
        "is_primary": True,
        "is_remote": False,
        "is_null": False,
        "is_new": False,
        "inode": inode,
        "remote_type": "",
        "version": 4,
        "projected_version": 4,
        **object_state({"request": 0, "lock": 0, "inodepin": 1, "dirty": 1}),
        "lock": lock("sync"),
        "versionlock": lock("lock"),
        "states": ["auth", "dirty"],
    }


def fragment(path, number, dentries):
    return {
        "path": "/" + path,
        "dirfrag": f"{number:#x}",
        "snapid_first": 2,
        **{f"{kind}version": "7" for kind in ("projected_", "")},
        **{f"{kind}_version": "0" for kind in ("committing", "committed")},
        "is_rep": False,
        "dir_auth": "",
        "states": ["auth", "dirty", "complete"],
        **object_state({"child": 1, "dirty": 1, "authpin": 0}),
        "dentries": dentries,
    }


def held(client):
    caps = "pAsxLsXsxFsxcrwb"
    return {"client_id": client, "pending": caps, "issued": caps, "wanted": "pFscr", "last_sent": 3}


def inode(number, mode, holders, fragments):
    """An inode as it is printed; a directory has fragments."""
    is_dir = bool(fragments)
    busy = "lock" if holders else None
    return {
        "ino": number,
        "rdev": 0,
        "ctime": STAMP,
        "btime": STAMP,
        "mode": mode,
        "uid": 0,
        "gid": 0,
        "nlink": 1,
        "dir_layout": {"dir_hash": 2 if is_dir else 0, "unused1": 0, "unused2": 0, "unused3": 0},
        "layout": {"stripe_unit": 4194304, "stripe_count": 1, "object_size": 4194304, "pool_id": 1, "pool_ns": ""},
        "old_pools": [],
        "size": 0,
        "truncate_seq": 1,
        "truncate_size": 18446744073709551615,
        "truncate_from": 0,
        "truncate_pending": 0,
        "mtime": STAMP,
        "atime": STAMP,
        "time_warp_seq": 0,
        "change_attr": 0,
        "export_pin": -1,
        "export_ephemeral_random_pin": 0,
        "export_ephemeral_distributed_pin": False,
        "client_ranges": [
            {"client": holder["client_id"], "byte range": {"first": 0, "last": 4194304}, "follows": 1} for holder in holders
        ],
        "dirstat": {"version": 0, "mtime": ZERO, "num_files": 0, "num_subdirs": 0, "change_attr": 0},
        "rstat": usage(1, int(is_dir)),
        "accounted_rstat": usage(1, int(is_dir)),
        "version": 5,
        "file_data_version": 0,
        "xattr_version": 1,
        "backtrace_version": 5,
        "stray_prior_path": "",
        "max_size_ever": 0,
        "quota": {"max_bytes": 0, "max_files": 0},
        "last_scrub_stamp": ZERO,
        "last_scrub_version": 0,
        "symlink": "",
        "xattrs": [],
        "dirfragtree": {"splits": []},
        "old_inodes": [],
        "oldest_snap": HEAD,
        "damage_flags": 0,
        **object_state({"request": 0, "caps": len(holders), "dirtyparent": 1, "dirty": 1}),
        "versionlock": lock("lock"),
        **{f"{name}lock": lock(busy) for name in ("auth", "link", "dirfragtree", "file", "xattr", "snap")},
        "nestlock": lock("lock"),
        **{f"{name}lock": lock(None) for name in ("flock", "policy")},
        "states": ["auth", "dirty", "dirtyparent"],
        "client_caps": holders,
        "loner": holders[0]["client_id"] if holders else -1,
        "want_loner": holders[0]["client_id"] if holders else -1,
        "mds_caps_wanted": [],
        "dirfrags": fragments,
    }


def inodes(count):
    """The root, in it a directory for each client, in these the others, and in each of them its files."""
    tops = [(f"c{client}", FIRST + client) for client in range(CLIENTS)]
    yield inode(1, 0o40755, [], [fragment("", 1, [dentry(name, number) for name, number in tops])])
    others = max(1, (count - 1 - CLIENTS) // (FILES + 1))
    places = [(f"c{place % CLIENTS}/d{place}", FIRST + CLIENTS + place) for place in range(others)]
    for client, (name, number) in enumerate(tops):
        yield inode(number, 0o40755, [], [fragment(name, number, [dentry(path, below) for path, below in places[client::CLIENTS]])])
    last = FIRST + CLIENTS + others
    for place, (name, number) in enumerate(places):
        files = [(f"{name}/file {file}", last + place * FILES + file) for file in range(FILES)]
        yield inode(number, 0o40755, [], [fragment(name, number, [dentry(path, file) for path, file in files])])
        for turn, (_, file) in enumerate(files):
            holders = [held(4000 + (place + turn // 16) % CLIENTS)] if turn % 4 == 0 else []
            yield inode(file, 0o100644, holders, [])


def write(folder, count):
    """The three texts of a cluster with so many inodes."""
    auth = [
        {"entity": f"client.c{client}", "key": "", "caps": {"mds": f"allow rw path=/c{client}, allow r", "mon": "allow r"}}
        for client in range(CLIENTS)
    ]
    sessions = [{"id": 4000 + client, "client_metadata": {"entity_id": f"c{client}"}} for client in range(CLIENTS)]
    (folder / "auth.json").write_text(json.dumps({"auth_dump": auth}))
    (folder / "sessions.json").write_text(json.dumps(sessions))
    with open(folder / "tree.json", "w") as tree:
        for place, item in enumerate(inodes(count)):
            tree.write(",\n" if place else "[\n")
            tree.write("\n".join("    " + line for line in json.dumps(item, indent=4).splitlines()))
        tree.write("\n]\n")
