"""For tests/hostile.py and tests/hostile_tools.py: what ./tso, installing and tools/ make of attacks and of faults."""
