"""bqd-web as a running program, and its answers."""
import collections
import http.client
import json
import os
import re
import socket
import subprocess
import sys
import time

from canned import PROGRAMS
from servers import free_port

Answer = collections.namedtuple("Answer", "status headers body")


class Web:
    """bqd-web for the server at that port, with these words. It is ended when this is left."""

    def __init__(self, server_port, *words, listen=None, env=None, stderr=subprocess.PIPE):
        self.port = free_port()
        listen = listen or f"127.0.0.1:{self.port}"
        command = [sys.executable, PROGRAMS / "bqd-web", "--server", f"127.0.0.1:{server_port}", "--listen", listen, *words]
        self.process = subprocess.Popen(command, stdout=subprocess.PIPE, stderr=stderr,
                                        env={**os.environ, **(env or {})})
        self.told = self.process.stdout.readline()

    def __enter__(self):
        return self

    def __exit__(self, *why):
        if self.process.poll() is None:
            self.process.terminate()
        try:
            self.errors = self.process.communicate(timeout=10)[1]
        except subprocess.TimeoutExpired:
            self.process.kill()
            raise

    def ask(self, path, method="GET", body=None, **headers):
        """Returns the answer to a path. `x_bqd_token="t"` is the header X-Bqd-Token."""
        connection = http.client.HTTPConnection("127.0.0.1", self.port, timeout=10)
        try:
            fields = {name.replace("_", "-"): value for name, value in headers.items()}
            connection.request(method, path, body, fields)
            answer = connection.getresponse()
            return Answer(answer.status, dict(answer.getheaders()), answer.read())
        finally:
            connection.close()

    def json(self, path):
        """Returns the JSON that a path answers."""
        return json.loads(self.ask(path).body)

    def raw(self, data):
        """Returns the status with which these bytes are answered, or b"" if no answer comes."""
        with socket.create_connection(("127.0.0.1", self.port), 10) as stream:
            stream.sendall(data)
            return stream.makefile("rb").readline()

    def metrics(self):
        """Returns the samples of the metrics, by name and labels."""
        lines = self.ask("/metrics").body.decode().splitlines()
        return {it.rpartition(" ")[0]: float(it.rpartition(" ")[2]) for it in lines if not it.startswith("#")}

    def reads(self, is_so):
        """Waits until the predicate holds for what is known of the server, and returns that."""
        for _ in range(300):
            found = self.json("/api/state")
            if is_so(found):
                return found
            time.sleep(0.05)
        raise AssertionError(f"it never came about: {str(found)[:300]}")

    def is_up(self):
        """Waits until the server was read."""
        return self.reads(lambda found: found["up"])

    def token(self):
        """Returns the token of the page."""
        return re.search(rb'name="bqd-token" content="([^"]*)"', self.ask("/").body)[1].decode()

    def act(self, what, asked, **changed):
        """Returns the answer to an action, which comes from the page unless it is changed."""
        own = f"127.0.0.1:{self.port}"
        headers = {"content_type": "application/json", "origin": f"http://{own}", "x_bqd_token": self.token(), **changed}
        return self.ask(f"/api/{what}", "POST", json.dumps(asked), **{name: it for name, it in headers.items() if it is not None})
