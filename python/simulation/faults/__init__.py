"""The faults of a run. Which happen when is planned before the run begins, and each has chance of its
own, so that leaving one out does not change the others."""

from . import clocks, network, people, processes, store  # noqa: F401  (they add their kinds)
from .base import KINDS, Fault, Faults, plan_of

__all__ = ["KINDS", "Fault", "Faults", "plan_of"]
