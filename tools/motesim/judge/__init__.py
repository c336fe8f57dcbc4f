"""Expectations: sentences about a run, and whether they hold for a report."""
