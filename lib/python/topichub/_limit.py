"""How long a wait may take: the same rule for threads, tasks and clients."""
from __future__ import annotations

import threading
import time
from typing import Optional


class Limit:
    """The end of a wait: a number of seconds from now, or never."""

    def __init__(self, timeout: Optional[float]) -> None:
        self._end = None if timeout is None else time.monotonic() + timeout

    def left(self) -> Optional[float]:
        """The seconds that are left, 0.0 once the time is up; `None` if there is no limit. A limit that is longer than the
        system can count is shortened to the longest that it can."""
        if self._end is None:
            return None
        return min(max(0.0, self._end - time.monotonic()), threading.TIMEOUT_MAX)
