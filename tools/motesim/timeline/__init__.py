"""The timeline: an HTML page of one run, or of two runs, one above the other."""
