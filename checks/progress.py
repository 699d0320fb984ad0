"""What a long piece of work says on standard error: what it has done, and in between that it goes on."""
import os
import sys
import threading
import time


class Progress:
    """Says what is done, and, where nothing was said for so many seconds, what `at` answers."""

    def __init__(self, alive, at):
        self.name, self.alive, self.at = os.path.basename(sys.argv[0]), alive, at
        self.begun, self.told = time.monotonic(), time.monotonic()
        self.lock = threading.Lock()
        threading.Thread(target=self._keep_telling, daemon=True).start()

    def say(self, text):
        """One line, with how long it has taken until now."""
        seconds = int(time.monotonic() - self.begun)
        count, unit = (seconds // 60, "minute") if seconds >= 180 else (seconds, "second")
        self.told = time.monotonic()
        print(f"{self.name}: {text}, after {count} {unit}{'' if count == 1 else 's'}", file=sys.stderr, flush=True)

    def _keep_telling(self):
        while True:
            time.sleep(1)
            with self.lock:
                if time.monotonic() - self.told >= self.alive:
                    self.say(self.at())
