"""Compares motesim with the simulator in C: random scenarios, their runs, and what they have reached."""
