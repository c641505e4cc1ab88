"""The time that both sides of a room have: for each choice, and in all.

It is computed from the times of the room's rows. Times are milliseconds since
1970.
"""


class Clock:
    """When each side's time for the current pair runs out.

    It depends on earlier pairs alone, so it does not reveal whether the other
    side has chosen.
    """

    __slots__ = ("first", "_choice", "_left", "_began", "_chosen", "_floor")

    def __init__(self, begun: int, choice: int, total: int) -> None:
        """`choice` is the time for each choice, `total` that for all."""
        self._choice, self._left = choice, [total, total]
        self._began, self._chosen, self._floor = begun, [0, 0], 0
        # The earlier time at which one side's time runs out.
        self.first = self._first()

    def chose(self, side: int, at: int) -> None:
        """A side has made its choice for the current pair."""
        self._chosen[side - 1] = at

    def cancelled(self, side: int) -> None:
        """A side has taken its choice back."""
        self._chosen[side - 1] = 0

    def ended(self, at: int) -> None:
        """The pair has ended, and the next one begins."""
        for place, chosen in enumerate(self._chosen):
            if chosen:
                used = min(max(chosen - self._began, 0), self._choice)
                self._left[place] = max(self._left[place] - used, 0)
        self._began, self._chosen, self._floor = at, [0, 0], 0
        self.first = self._first()

    def due(self, side: int) -> int:
        """The time at which a side's time for the current pair runs out."""
        return max(self._began + min(self._choice, self._left[side - 1]), self._floor)

    def not_before(self, at: int) -> None:
        """For the current pair, no time runs out earlier. For a room that was
        not open for a while.
        """
        self._floor = at
        self.first = self._first()

    def _first(self) -> int:
        return min(self.due(1), self.due(2))
