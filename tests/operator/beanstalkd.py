"""beanstalkd as a running server."""
import subprocess

from servers import Server, connected, free_port


class Beanstalkd(Server):
    """beanstalkd. It does not report that it listens, and accepts the words `-z BYTES` as bqd does."""

    def __init__(self, program, *words, port=None):
        port = port or free_port()
        listen = ["-l", "127.0.0.1", "-p", str(port)]
        super().__init__(program, *words, port=port, listen=listen, stdout=subprocess.DEVNULL)
        connected(port).close()
