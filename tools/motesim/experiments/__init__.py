"""Sweeps over the parameters of a plan: runs, measures, results and plots."""
