"""Wrong rules of version 2, each the model with one change: the table's systems tell each of them from the right one."""
from typing import Optional, Tuple

from system import SETPRIO, WAKE, Model


class ByArrival(Model):
    """Who came first goes first, as in version 1."""

    def goes_first(self) -> int:
        return min(self.ready, key=lambda number: -self.threads[number].priority)


class ByNumber(Model):
    """Of those that are ready since the same tick the lowest number goes first, not the first that came."""

    def goes_first(self) -> int:
        return min(self.ready, key=lambda number: (-self.threads[number].priority, self.threads[number].since, number))


class SinceItsRelease(Model):
    """A thread that is released is ready since the tick in which it is, not since its due."""
    now = 0

    def tick(self, tick: int) -> None:
        self.now = tick
        super().tick(tick)

    def joins(self, number: int, since: int) -> None:
        super().joins(number, self.now)


class SinceTheGate(Model):
    """A gate on a thread that is ready makes it ready since that gate."""
    function = 0

    def gate(self, tick: int, caller: Optional[int], words: Tuple[int, ...]) -> int:
        was_ready = words[1] in self.ready
        result = super().gate(tick, caller, words)
        if words[0] == self.function and was_ready:
            self.threads[words[1]].since = tick
        return result


class SinceItWasRated(SinceTheGate):
    """Gate 9 does so."""
    function = SETPRIO


class SinceItWasWoken(SinceTheGate):
    """Gate 5 does so."""
    function = WAKE


RULES = (ByArrival, ByNumber, SinceItsRelease, SinceItWasRated, SinceItWasWoken)
