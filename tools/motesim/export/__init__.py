"""Tables of a run for pandas and R, and programs in C. docs/use/REPORT.md has the tables."""
