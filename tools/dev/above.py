"""Puts tools/ on the path: the commands of this folder are modules of the package `project`."""
import sys
from pathlib import Path

sys.path.insert(0, str(Path(__file__).resolve().parents[1]))
