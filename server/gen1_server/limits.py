"""How much a client may ask for: by connection, by account and by address."""

from collections import defaultdict
from time import monotonic
from weakref import WeakValueDictionary

# Full buckets of addresses are forgotten when there are more.
MOST_ADDRESSES = 10_000
# A wrong password or token counts as this many logins.
FAILED = 50.0


class Bucket:
    """Allows `rate` a second on average, and `most` at once."""

    __slots__ = ("_rate", "_most", "_left", "_since", "__weakref__")

    def __init__(self, rate: float, most: float) -> None:
        self._rate, self._most, self._left, self._since = rate, most, most, monotonic()

    def take(self, cost: float = 1.0) -> float:
        """Takes something. Returns how many seconds to wait first, 0 for none."""
        moment = monotonic()
        self._left = min(self._left + (moment - self._since) * self._rate, self._most) - cost
        self._since = moment
        return -self._left / self._rate if self._left < 0 else 0.0

    def takes(self, cost: float = 1.0) -> bool:
        """Takes something if it is allowed at once. Returns whether it did."""
        if self.take(cost) > 0:
            self._left += cost
            return False
        return True

    def is_full(self) -> bool:
        """Whether nothing was taken lately."""
        return self._left + (monotonic() - self._since) * self._rate >= self._most


class Limits:
    """The buckets of accounts and addresses, and the connections of each
    address.
    """

    def __init__(self, rate: float, most: float, logins_per_minute: float) -> None:
        self._rate, self._most, self._logins = rate, most, logins_per_minute
        self._accounts: WeakValueDictionary[int, Bucket] = WeakValueDictionary()
        self._addresses: dict[str, Bucket] = {}
        self.connections: dict[str, int] = defaultdict(int)

    def of_account(self, account: int) -> Bucket:
        """The bucket for messages that all connections of an account share."""
        found = self._accounts.get(account)
        if found is None:
            found = self._accounts[account] = Bucket(self._rate, self._most)
        return found

    def login(self, address: str) -> bool:
        """Counts a login of an address. Returns whether it is allowed now."""
        return self._of_address(address).takes()

    def failed(self, address: str) -> None:
        """Counts a wrong password or token of an address."""
        self._of_address(address).take(FAILED)

    def _of_address(self, address: str) -> Bucket:
        if len(self._addresses) > MOST_ADDRESSES:
            self._addresses = {it: bucket for it, bucket in self._addresses.items() if not bucket.is_full()}
        found = self._addresses.get(address)
        if found is None:
            found = self._addresses[address] = Bucket(self._logins / 60, self._logins)
        return found

    def connect(self, address: str, most: int) -> bool:
        """Counts a connection of an address. Returns False if it has too many."""
        if self.connections[address] >= most:
            return False
        self.connections[address] += 1
        return True

    def disconnect(self, address: str) -> None:
        """Counts the end of a connection."""
        self.connections[address] -= 1
        if not self.connections[address]:
            del self.connections[address]
