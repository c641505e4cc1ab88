"""Plays recorded battles with the JavaScript library in headless Chromium.

The page is js/test/test.html, which is served only on the loopback interface.
"""

import functools
import json
import queue
import subprocess
import tempfile
import threading
from http.server import SimpleHTTPRequestHandler, ThreadingHTTPServer
from pathlib import Path

SECONDS = 240


class Served(SimpleHTTPRequestHandler):
    """A server of the folder and of the battles below battles/, which receives the page's counts."""

    extensions_map = {**SimpleHTTPRequestHandler.extensions_map, ".mjs": "text/javascript", ".wasm": "application/wasm"}

    def __init__(self, *words, folder, battles, ends, **more):
        self.battles, self.ends = battles, ends
        super().__init__(*words, directory=str(folder), **more)

    def translate_path(self, path):
        if path.startswith("/battles/"):
            return str(self.battles / Path(path).name)
        return super().translate_path(path)

    def do_POST(self):
        self.ends.put(json.loads(self.rfile.read(int(self.headers["Content-Length"]))))
        self.send_response(204)
        self.end_headers()

    def log_message(self, *_):
        pass


def played(folder, battles):
    """The counts that the page sends at its end."""
    ends = queue.Queue()
    server = ThreadingHTTPServer(("127.0.0.1", 0), functools.partial(Served, folder=folder, battles=battles, ends=ends))
    threading.Thread(target=server.serve_forever, daemon=True).start()
    words = [
        "--headless",
        "--no-sandbox",
        "--disable-gpu",
        "--disable-dev-shm-usage",
        f"http://127.0.0.1:{server.server_port}/test/test.html",
    ]
    with tempfile.TemporaryDirectory() as profile:
        browser = subprocess.Popen(
            ["chromium", f"--user-data-dir={profile}", "--remote-debugging-port=0", *words], stderr=subprocess.DEVNULL
        )
        try:
            return ends.get(timeout=SECONDS)
        except queue.Empty:
            return {"build": "none", "passed": 0, "faults": [f"the page sent nothing in {SECONDS} seconds"]}
        finally:
            browser.kill()
            browser.wait()
