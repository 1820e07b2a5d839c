"""What a run may do where memory is wanting."""

from dataclasses import dataclass

NO_MEMORY = 40


@dataclass(frozen=True)
class Run:
    """How a run ended: its status, and what it wrote."""

    status: int
    text: bytes

    def is_without_memory(self):
        """Whether it ended for want of memory, and wrote nothing."""
        return self.status == NO_MEMORY and self.text == b""


def is_allowed(run, whole):
    """Whether a run in which memory was wanting did what it may, beside the run that had all of it."""
    return run.is_without_memory() or run == whole
