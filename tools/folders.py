"""A tool imports this first: then it can import what stands in any folder of tools/.

Python looks in the folder of the tool that is run, so each folder has a `folders.py` that runs this one.
"""
import os
import sys

TOOLS = os.path.dirname(os.path.realpath(__file__))

sys.path[1:1] = [TOOLS, *sorted(it.path for it in os.scandir(TOOLS) if it.is_dir() and it.name not in ("anchors", "__pycache__"))]
