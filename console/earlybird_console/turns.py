"""Work in the event loop that others can come between."""
import asyncio
import time

# seconds for which one has the event loop
SLICE = 0.005


class Turn:
    """One that works step by step, and lets others go on once its time is over."""

    def __init__(self):
        self._begun = time.monotonic()

    async def rest(self):
        """Lets others go on, where it is time."""
        if time.monotonic() - self._begun > SLICE:
            await asyncio.sleep(0)
            self._begun = time.monotonic()
