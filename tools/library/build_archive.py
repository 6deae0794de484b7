#!/usr/bin/env python3
"""Builds the archive of a static library over the libraries that `rt ci` left below it, in the folder that it is run in.

The gate proves such a crate and builds no archive; `rt lib` builds one, but all libraries below it anew, since it
takes over none that the gate made. So this calls what `rt lib` does last.
"""
import os
import shutil
import sys

sys.path.insert(0, os.path.dirname(os.path.realpath(shutil.which("rt"))))
import rtlib

import folders
from beginning import begin


def main():
    begin(__doc__)
    here = os.getcwd()
    # As the gate: a crate stands on the statements of those below it.
    rtlib.Crate.cuts_libraries = True
    return rtlib.Crate(here, rtlib.root_above(here) or here, {}).build_static([])


if __name__ == "__main__":
    sys.exit(main())
