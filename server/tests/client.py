"""A client of protocol 1, and a server process, for the tests."""

import asyncio
import base64
import json
import os
import random
import shutil
import signal
import socket
import subprocess
import sys
import tempfile
import time
import urllib.error
import urllib.request
from contextlib import contextmanager
from pathlib import Path

import aiohttp

PACKAGE = Path(__file__).resolve().parents[1]


def free_port():
    with socket.socket() as made:
        made.bind(("127.0.0.1", 0))
        return made.getsockname()[1]


@contextmanager
def postgresql(*options):
    """A PostgreSQL in a temporary folder, run by another user if this is root's. Gives a function that makes databases, or None if
    PostgreSQL isn't installed."""
    found = sorted(Path("/usr/lib/postgresql").glob("*/bin"), key=lambda it: float(it.parent.name))
    if not found or not shutil.which("runuser"):
        yield None
        return
    bin, folder = found[-1], Path(tempfile.mkdtemp(prefix="gen1-postgres-"))
    user = ["runuser", "-u", "postgres", "--"] if os.geteuid() == 0 else []
    if user:
        shutil.chown(folder, "postgres")
    data, words = folder / "data", " ".join([f"-k {folder} -c listen_addresses=''", *options])
    run = {"check": True, "stdout": subprocess.DEVNULL, "cwd": "/"}
    subprocess.run([*user, bin / "initdb", "-D", data, "-U", "gen1", "-A", "trust", "-E", "UTF8"], **run)
    subprocess.run([*user, bin / "pg_ctl", "-w", "-D", data, "-l", folder / "log", "-o", words, "start"], **run)
    count = iter(range(1000))

    def made():
        name = f"gen1_{next(count)}"
        subprocess.run([bin / "createdb", "-h", folder, "-U", "gen1", name], check=True)
        return f"postgresql://gen1@/{name}?host={folder}"

    try:
        yield made
    finally:
        subprocess.run([*user, bin / "pg_ctl", "-D", data, "-m", "immediate", "stop"], **run)
        shutil.rmtree(folder)


class Process:
    """A server process with its options; it listens at `url`."""

    def __init__(self, folder, **options):
        self.folder, self.port = folder, free_port()
        name = options.setdefault("name", "one")
        self.options = {"port": self.port, "database": str(folder / "server.db"), "bot": ""} | options
        self.config = folder / f"{name}.toml"
        self.config.write_text("".join(f"{key} = {json.dumps(value)}\n" for key, value in self.options.items()))
        self.log = (folder / f"{name}.log").open("a+")
        self.url, self.web = f"ws://127.0.0.1:{self.port}/socket", f"http://127.0.0.1:{self.port}"
        self.child = None

    def start(self):
        self.child = subprocess.Popen([sys.executable, "-m", "gen1_server", "--config", self.config], stderr=self.log)
        for _ in range(6000):
            if self.child.poll() is not None:
                raise RuntimeError(
                    f"the server ended, status {self.child.returncode}: {Path(self.log.name).read_text()[-2000:]}"
                )
            try:
                if self.get("/ready") == "ready\n":
                    return self
            except OSError:
                time.sleep(0.01)
        raise RuntimeError("the server does not get ready")

    def get(self, path):
        with urllib.request.urlopen(self.web + path, timeout=10) as found:
            return found.read().decode()

    def metric(self, name):
        lines = [it for it in self.get("/metrics").splitlines() if it.startswith(name)]
        return sum(float(it.rpartition(" ")[2]) for it in lines)

    def command(self, *words):
        ran = subprocess.run(
            [sys.executable, "-m", "gen1_server", "--config", self.config, *words], capture_output=True, text=True
        )
        return ran.returncode, ran.stdout + ran.stderr

    def signal(self, number):
        os.kill(self.child.pid, number)

    def kill(self):
        if self.child and self.child.poll() is None:
            self.signal(signal.SIGKILL)
            self.child.wait()

    def stop(self):
        self.signal(signal.SIGTERM)
        return self.child.wait(20)

    def said(self):
        return Path(self.log.name).read_text()


class Client:
    """A connection of protocol 1. `heard` and `said` have the received and the sent messages."""

    def __init__(self, session, url):
        self.session, self.url, self.socket, self.heard, self.said = session, url, None, [], []

    async def connect(self, **login):
        self.socket = await self.session.ws_connect(self.url, max_msg_size=0)
        await self.until("hello")
        if login:
            await self.say(**login)
            self.welcome = await self.until("welcome", "refused")
        return self

    async def say(self, **given):
        self.said.append(given)
        await self.socket.send_str(json.dumps(given))

    async def hear(self, seconds=30):
        # Not wait_for, which continues where it is cancelled while its message comes.
        async with asyncio.timeout(seconds):
            message = await self.socket.receive()
        if message.type is not aiohttp.WSMsgType.TEXT:
            raise ConnectionError(f"closed: {message}")
        self.heard.append(json.loads(message.data))
        return self.heard[-1]

    async def until(self, *kinds, seconds=30):
        """The next message of one of these types."""
        async with asyncio.timeout(seconds):
            while True:
                found = await self.hear(seconds)
                if found["type"] in kinds:
                    return found

    async def ask(self, *kinds, **given):
        await self.say(**given)
        return await self.until(*kinds)


def guest(session, server, name):
    return Client(session, server.url).connect(type="guest", name=name)


async def paired(one, two, format="gen1randombattle", **team):
    """Begins a battle of two clients; returns what each is shown."""
    made = await one.ask("challenging", type="challenge", format=format, **team)
    await two.say(type="accept", code=made["code"], **team)
    return await one.until("room"), await two.until("room")


async def play(client, shown, pairs=None, chance=None):
    """Makes random choices in a room until it ends, or for some pairs."""
    chance, first = chance or random.Random(1), shown["number"]
    while "ending" not in shown and (pairs is None or shown["number"] < first + pairs):
        if shown["awaited"]:
            choice = chance.choice(shown["choices"])
            await client.say(type="choose", room=shown["room"], number=shown["number"], choice=choice)
        shown = await client.until("update")
    return shown


def run(test, seconds=400):
    """Runs a test that is a coroutine function of a session."""

    async def whole():
        async with asyncio.timeout(seconds), aiohttp.ClientSession(connector=aiohttp.TCPConnector(limit=0)) as session:
            return await test(session)

    return asyncio.run(whole())


def unpacked(text):
    return base64.b64decode(text)


def packed(data):
    return base64.b64encode(data).decode()
