"""Names, passwords and tokens.

A password is kept as its salted scrypt, a token as its SHA-256. A guest has a
name without a password: anyone may use it while it isn't in use, except that
its open battles stay with the address that it came from.
"""

import hashlib
import hmac
import secrets
from asyncio import Semaphore, get_running_loop
from dataclasses import dataclass
from functools import lru_cache, partial

from gen1_server import people
from gen1_server.core import Refused
from gen1_server.rooms import Rooms, now
from gen1_server.store import Conflict, Store

# How long a token is valid, in milliseconds.
MONTH = 30 * 24 * 3600 * 1000
SALT = 16
# The cost of scrypt: 16 MB, and some 50 ms.
COST = 1 << 14
LONGEST_NAME, LONGEST_PASSWORD, SHORTEST_PASSWORD = 18, 1024, 8
# Characters that mean something in Showdown's protocol or in HTML.
NOT_IN_NAMES = frozenset("|,;\"'<>&")


@dataclass(frozen=True, slots=True)
class Account:
    """The number of an account, and its name as it was registered."""

    id: int
    name: str


@lru_cache(4096)
def folded(name: str) -> str:
    """The form in which names are compared: letters and digits in lower case."""
    return "".join(it for it in name.lower() if it.isascii() and it.isalnum())


class Accounts:
    """Accounts by their names and tokens."""

    def __init__(self, store: Store, rooms: Rooms, secret: str, guests: bool, computer: str) -> None:
        self._computer = folded(computer)
        self._store, self._rooms, self._guests = store, rooms, guests
        self._key = secret.encode() or secrets.token_bytes(32)
        # One password at a time, so that a flood of them delays only other passwords.
        self._turn = Semaphore(1)
        self._addresses: dict[int, str] = {}

    async def register(self, name: str, password: str) -> Account:
        """Adds an account. Raises `Refused` for a name that is taken or not
        allowed, and for a short password.
        """
        if not SHORTEST_PASSWORD <= len(password) <= LONGEST_PASSWORD:
            raise Refused("password", f"a password has {SHORTEST_PASSWORD} to {LONGEST_PASSWORD} characters")
        self._check_name(name)
        return await self._add(name, await self._hash(password, secrets.token_bytes(SALT)))

    async def login(self, name: str, password: str) -> Account:
        """The account with this name and password. Raises `Refused`."""
        found = await self._store.run(partial(people.account_named, folded(name)))
        number, known, secret = found or (0, name, b"")
        # As much work for a name that does not exist.
        given = await self._hash(password[:LONGEST_PASSWORD], secret[:SALT] or bytes(SALT))
        if not secret or not hmac.compare_digest(given, secret):
            raise Refused("login", "no account has this name and password")
        return Account(number, known)

    async def guest(self, name: str, address: str) -> Account:
        """The account of a guest, which is added if there is none. Raises
        `Refused` for a name that has a password or is in use.
        """
        if not self._guests:
            raise Refused("login", "log in with a password")
        self._check_name(name)
        found = await self._store.run(partial(people.account_named, folded(name)))
        if found and found[2]:
            raise Refused("login", "this name has a password")
        made = Account(found[0], found[1]) if found else await self._add(name, b"")
        is_elsewhere = self._addresses.get(made.id, address) != address
        if is_elsewhere and (self._rooms.online.get(made.id) or self._rooms.rooms_of(made.id)):
            raise Refused("taken", "a guest of another address uses this name")
        self._addresses[made.id] = address
        return made

    async def named(self, name: str) -> Account | None:
        """The account of a name, if there is one."""
        found = await self._store.run(partial(people.account_named, folded(name)))
        return Account(found[0], found[1]) if found else None

    async def known(self, name: str) -> Account:
        """The account of a name; it is added as a guest's if there is none."""
        return await self.named(name) or await self._add(name, b"")

    async def new_token(self, account: Account) -> str:
        """A new token of an account, valid for 30 days."""
        made = secrets.token_urlsafe(32)
        await self._store.run(partial(people.add_session, _digest(made), account.id, now() + MONTH, now()))
        return made

    async def of_token(self, token: str) -> Account:
        """The account that a token was made for. Raises `Refused`."""
        found = await self._store.run(partial(people.account_of_session, _digest(token), now()))
        if found is None:
            raise Refused("token", "the token is unknown, revoked or has expired")
        return Account(*found)

    async def revoke(self, account: Account, token: str | None) -> None:
        """Revokes a token of an account; None: all of them."""
        await self._store.run(partial(people.revoke, account.id, None if token is None else _digest(token)))

    def assertion(self, name: str, challenge: str) -> str:
        """A signed statement that a client may use a name, for Showdown's `/trn`.
        The caller has checked its password.
        """
        said = f"{challenge},{folded(name)}"
        return f"{said};{hmac.new(self._key, said.encode(), hashlib.sha256).hexdigest()}"

    async def asserted(self, name: str, challenge: str, assertion: str) -> Account:
        """The account of a name, by its assertion. Raises `Refused`."""
        found = await self.named(name)
        if found is None or not hmac.compare_digest(assertion.encode(), self.assertion(name, challenge).encode()):
            raise Refused("login", "the assertion is wrong")
        return found

    def _check_name(self, name: str) -> None:
        key = folded(name)
        if not key or len(name) > LONGEST_NAME or not name.isprintable() or set(name) & NOT_IN_NAMES:
            said = f"a name has 1 to {LONGEST_NAME} characters, of them a letter or digit, and none of | , ; \" ' < > &"
            raise Refused("name", said)
        if key == self._computer:
            raise Refused("taken", "the name is taken")

    async def _add(self, name: str, secret: bytes) -> Account:
        try:
            return Account(await self._store.run(partial(people.add_account, name, folded(name), secret, now())), name)
        except Conflict:
            raise Refused("taken", "the name is taken") from None

    async def _hash(self, password: str, salt: bytes) -> bytes:
        async with self._turn:
            work = partial(hashlib.scrypt, password.encode(), salt=salt, n=COST, r=8, p=1)
            return salt + await get_running_loop().run_in_executor(None, work)


def _digest(token: str) -> bytes:
    return hashlib.sha256(token.encode()).digest()
