"""Hypothesis, for tests of properties. The texts that it chooses are the same in each run. Without it, the modules that
import from here are skipped."""
import pytest

pytest.importorskip('hypothesis', reason='hypothesis is not installed: on Debian `apt-get install python3-hypothesis`')
from hypothesis import HealthCheck, given, settings, strategies as st  # noqa: E402

settings.register_profile('tools', deadline=None, derandomize=True, max_examples=20, database=None,
                          suppress_health_check=[*HealthCheck])
settings.load_profile('tools')
__all__ = ['given', 'settings', 'st']
