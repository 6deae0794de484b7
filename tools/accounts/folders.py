"""Runs ../folders.py for the tools of this folder: Python looks for a tool's imports beside it."""
import os
import runpy

runpy.run_path(os.path.join(os.path.dirname(os.path.dirname(os.path.realpath(__file__))), "folders.py"))
