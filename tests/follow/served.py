"""Both witnesses, served on loopback by the same calls: `vkey`, `port`, `start` and `stop`. They stay on their ports."""

import os
import subprocess
import sys

from script import TOP


class Served:
    """The tests' witness, in a thread."""

    def __init__(self, witness):
        self.witness = witness
        self.vkey = witness.key.vkey
        self.port = 0
        self.start()

    def start(self):
        self.server = self.witness.serve(self.port)
        self.port = self.server.server_port

    def stop(self):
        self.server.shutdown()
        self.server.server_close()


class Another:
    """The witness of another hand, in a process."""

    def __init__(self, folder, vkey):
        self.words = [sys.executable, "-S", TOP / "tests/follow/another_witness.py", folder, "another.example", vkey]
        folder.mkdir()
        self.port = 0
        self.start()

    def start(self):
        environment = {**os.environ, "PORT": str(self.port)}
        self.process = subprocess.Popen(self.words, stdout=subprocess.PIPE, text=True, env=environment)
        self.vkey, self.port = self.process.stdout.readline().strip(), int(self.process.stdout.readline())

    def stop(self):
        self.process.terminate()
        self.process.wait()
        self.process.stdout.close()
