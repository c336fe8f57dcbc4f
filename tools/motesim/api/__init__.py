"""The functions of `import motesim`: `run`, `expect`, `search`, `why` and `compare`, and what they return; and a
fixture for pytest."""
