"""Commands without a library of their own: a module for each, which reads the arguments and prints."""
