"""A laboratory for placement policies: workloads, policies that ask for calls of the model, and what became of their pages.

    from numalab.policies import MOVE_ALL, Policy

    class Mine(Policy):
        def epoch(self, view):
            view.move_pages([page for page in view.on(1) if page in view.accessed], 0, MOVE_ALL)

`numalab policies` runs such a class beside others. Every call is made by the program numatrace_session, which is proved; nothing of
this package is."""
from .policy import MOVE, MOVE_ALL, STRICT, Policy

__all__ = ["MOVE", "MOVE_ALL", "STRICT", "Policy"]
