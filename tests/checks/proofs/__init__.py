"""Definitions and proofs: as texts, as what a check leaves of them, and as terms that are computed in plain Python."""
