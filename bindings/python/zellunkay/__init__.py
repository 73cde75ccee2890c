"""The proved core of a thread pool: `audit`, `steps`, `explore`, `now`, a `Machine`, and an `Executor` in the form of concurrent.futures."""

from .executor import Executor
from .core import PoolView
from .machine import Answer, Ask, Fate, Kind, Machine, Place, Recorder, TaskView, Verdict, What
from .texts import Refused, Told, audit, explore, now, steps

__all__ = [
    "Answer", "Ask", "Executor", "Fate", "Kind", "Machine", "Place", "PoolView", "Recorder", "Refused", "TaskView", "Told", "Verdict", "What",
    "audit", "explore", "now", "steps",
]
