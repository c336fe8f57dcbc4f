"""Two runs next to each other: the first difference of their reports, and all differences of their scenarios."""
