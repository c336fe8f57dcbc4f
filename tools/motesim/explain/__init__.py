"""Explanations of faults, with hints, and warnings of things that are legal but probably not meant."""
