"""For tests/compiled.py: programs, bugs, and second ways to what tools/compiled says."""
# With it the modules of tools/ are found.
import checks.tools
