"""What this package refuses or reports."""
from __future__ import annotations

from typing import TYPE_CHECKING

if TYPE_CHECKING:
    from .checking import Verdict


class TezgumiError(Exception):
    """Anything that this package refuses or reports."""


class InputError(TezgumiError, ValueError):
    """A number that breaks a limit, or lists that do not fit each other. The text says which element, and why."""


class LoadError(InputError):
    """All else is in order, and a load is above the greatest one, or the loads add up to more than that."""


class OutOfMemory(TezgumiError, MemoryError):
    """The library was refused memory. Nothing was planned or checked."""


class LibraryError(TezgumiError, OSError):
    """The shared library was not found, or is one for another interface."""


class DumpError(TezgumiError, ValueError):
    """Bytes that are no dump.

    `line` is what lb_sim prints for them, without the end of the line. The text of the exception is this line and, where
    there is more to tell, the number that was found and where.
    """

    def __init__(self, fault: str, found: object = "") -> None:
        self.fault, self.found = fault, str(found)
        self.line = f"dump: {fault}"
        super().__init__(f"{self.line} ({found})" if found else self.line)


class TraceError(TezgumiError, ValueError):
    """A file that is no trace in the Trace Event Format."""

    def __init__(self, fault: str) -> None:
        super().__init__(f"trace: {fault}")


class TableError(InputError):
    """A file that is no table of elements, in CSV or NPY, or has a number that breaks a limit. The text says where, and what is wanted."""

    def __init__(self, fault: str) -> None:
        self.fault = fault
        super().__init__(f"table: {fault}")


class PlanError(TezgumiError, ValueError):
    """A text that is no plan in JSON, a plan for another run, or one that the check refuses: then `verdict` has what that says."""

    def __init__(self, fault: str, verdict: Verdict | None = None) -> None:
        self.fault, self.verdict = fault, verdict
        super().__init__(f"plan: {fault}")
