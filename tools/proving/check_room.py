#!/usr/bin/env python3
"""Makes a room in which `rt check` finds the libraries that the gate has proved on this machine, or refreshes it.

    tools/proving/check_room.py ROOM          makes it, if it isn't there: do so when ./prove or `rt ci` has passed over these
                                              sources. Else copies the sources there, and no more

Then `cd ROOM/crates/NAME; rt check --only FUNCTION`. What a check in a crate's folder keeps and what the gate keeps are
two things: in a new clone the first check proves all crates below its own, for half an hour, and in the room it begins
at once. It is for writing proofs; only the gate's word counts. Edit the sources here. What a check kept in the room
stays when it is refreshed, and a crate that has changed is proved there by the first check above it.
"""
import functools
import glob
import importlib.machinery
import importlib.util
import json
import os
import shutil
import sys

import folders
from beginning import begin
from programs import CRATES, TOP, crates_below
from prove_once import PARTS, write_copy

# Where the kit's command stands, and where its gate keeps what it proved.
KIT = "/opt/rattle"
STORE = "/opt/rattle-kept"


def kit():
    """The kit's own account of crates: where their libraries stand, and the sums by which it knows them."""
    loader = importlib.machinery.SourceFileLoader("rtlib", f"{KIT}/bin/rtlib.py")
    module = importlib.util.module_from_spec(importlib.util.spec_from_loader("rtlib", loader))
    loader.exec_module(module)
    # A crate's sum is made of those of all below it: each once.
    module.Crate.stamp = functools.cache(module.Crate.stamp)
    return module


def refresh(crates, room):
    """Copies the sources into a room that is there, and takes away crates that have gone."""
    shutil.copy(os.path.join(TOP, "crates.txt"), room)
    for gone in set(os.listdir(os.path.join(room, "crates"))) - set(crates):
        shutil.rmtree(os.path.join(room, "crates", gone))
    for crate in crates:
        for part in PARTS:
            at, to = os.path.join(CRATES, crate, part), os.path.join(room, "crates", crate, part)
            shutil.rmtree(to, ignore_errors=True)
            if os.path.isdir(at):
                shutil.copytree(at, to)


def kept_of(crate):
    """The folder with what was kept last of a crate, and its files, if anything was."""
    found = glob.glob(f"{STORE}/proof-{crate}-{64 * '[0-9a-f]'}/made.json")
    if not found:
        return None, []
    made = max(found, key=os.path.getmtime)
    with open(made, encoding="utf-8") as told:
        return os.path.dirname(made), json.load(told)["files"]


def give(crate):
    """Puts the kept library of a crate into the room; whether there is one."""
    kept, files = kept_of(crate.name)
    if not kept:
        return False
    out = os.path.join(crate.folder, "out")
    shutil.rmtree(os.path.join(out, "rlib"), ignore_errors=True)
    for number, (path, _) in enumerate(files):
        os.makedirs(os.path.dirname(os.path.join(out, path)), exist_ok=True)
        shutil.copyfile(os.path.join(kept, str(number)), os.path.join(out, path))
    with open(os.path.join(out, "rlib", "stamp"), "w", encoding="utf-8") as stamp:
        stamp.write(crate.stamp())
    return True


def main():
    begin(__doc__)
    if len(sys.argv) != 2:
        print(__doc__.split("\n\n")[1])
        return 1
    room, names = os.path.abspath(sys.argv[1]), crates_below(sorted(os.listdir(CRATES)))
    if os.path.isdir(room):
        refresh(names, room)
        print(f"check_room: the sources of {len(names)} crates are those of today in {room}")
        return 0
    write_copy(names, room)
    crates = [it for it in kit().crates_below(os.path.join(room, "crates")) if not (it.is_program or it.is_static)]
    without = [crate.name for crate in crates if not give(crate)]
    print(f"check_room: {len(crates) - len(without)} libraries in {room}; none of {', '.join(without) or 'no crate'}")
    return 0


if __name__ == "__main__":
    sys.exit(main())
