"""The notation of programs: its words, its grammar, and the faults of a text."""
