"""Mutants of the crates' functions: their edits, the checks that judge them, and the log of the verdicts."""
