"""Lets a tool of this folder find the packages of tools/; each tool imports it before them."""

import os
import sys

TOOLS = os.path.dirname(os.path.dirname(os.path.abspath(__file__)))
CRATES = os.path.join(os.path.dirname(TOOLS), "crates")
# the worked cases
DATA = os.path.join(CRATES, "worked_cases", "data")
sys.path.insert(0, TOOLS)
