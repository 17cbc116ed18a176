"""Traces for numatrace that a person can write, and its reports as a person can read them. Nothing here is proved."""
from .machine import Machine, Refused
from .session import Fault, Session

__all__ = ["Fault", "Machine", "Refused", "Session"]
__version__ = "1.1.0"
