"""Plans: scenarios that are described by rules, with parameters."""
