"""The tools of ./frapmast. Nothing here is proved: docs/TOOLS.md says what each tool rests on.

The folders of the module that makes the calls (library/) and of the one that makes sessions (examples/) are put on the path.
"""
import os
import sys

TOP = os.path.dirname(os.path.dirname(os.path.abspath(__file__)))
sys.path[1:1] = [os.path.join(TOP, folder) for folder in ("library", "examples")]
