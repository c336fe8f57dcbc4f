"""Scenarios: reads them, and finds their faults."""
from motesim.scenario.refused import ScenarioFault
from motesim.scenario.scenario import Scenario

__all__ = ['Scenario', 'ScenarioFault']
