"""Totals of a run: by mote, for the net, by link, and by flow."""
