"""Compiled code against its source: the modules of tools/compiled."""
