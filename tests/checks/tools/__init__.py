"""Calls of tools/, and what each tool must answer. Whoever imports this package finds the modules of tools/ too."""
import os
import sys

from checks.judging import TOP

TOOLS = os.path.join(TOP, "tools")
sys.path.insert(0, TOOLS)
