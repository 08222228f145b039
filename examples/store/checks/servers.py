"""Servers of a check: on loopback, on free ports, with their data in a folder of the check, and ended by their ids."""
import http.client
import os
import shutil
import signal
import socket
import subprocess
import time

import redis


def free_ports(count):
    """Ports that nobody listens on, at once."""
    held = [socket.socket() for _ in range(count)]
    for it in held:
        it.bind(("127.0.0.1", 0))
    ports = [it.getsockname()[1] for it in held]
    for it in held:
        it.close()
    return ports


def wait_until(is_so, seconds, what):
    end = time.monotonic() + seconds
    while not is_so():
        if time.monotonic() > end:
            raise TimeoutError(f"{what} after {seconds} seconds")
        time.sleep(0.02)


class Process:
    """A server program of one's own. `data` is its folder."""

    def __init__(self, data, port):
        self.data, self.port, self.process = data, port, None

    @property
    def address(self):
        return f"127.0.0.1:{self.port}"

    def start(self):
        os.makedirs(self.data, exist_ok=True)
        with open(os.path.join(self.data, "log"), "ab") as log:
            self.process = subprocess.Popen(self.command(), stdin=subprocess.DEVNULL, stdout=log, stderr=log)
        return self

    def end(self, number=signal.SIGTERM):
        """Ends it, by force where it doesn't end."""
        if self.process is None:
            return
        # One that stands still goes on first.
        self.process.send_signal(signal.SIGCONT)
        self.process.send_signal(number)
        try:
            self.process.wait(10)
        except subprocess.TimeoutExpired:
            self.process.kill()
            self.process.wait()
        self.process = None

    def kill(self):
        self.end(signal.SIGKILL)

    def lose_data(self):
        self.kill()
        shutil.rmtree(self.data)


class RedisServer(Process):
    """A Redis server, with a journal that is on the disk before it answers, or in memory alone."""

    def __init__(self, data, port, has_journal):
        super().__init__(data, port)
        self.has_journal = has_journal

    def command(self):
        return ["redis-server", "--bind", "127.0.0.1", "--port", str(self.port), "--dir", self.data, "--save", "",
                "--appendonly", "yes" if self.has_journal else "no", "--appendfsync", "always", "--loglevel", "warning"]

    def is_up(self):
        try:
            with redis.Redis(port=self.port, socket_timeout=1) as client:
                return client.ping()
        except redis.RedisError:
            return False


class EtcdMember(Process):
    """A member of a cluster of its own; `peers` are the ports of all members for one another, `number` is its place among them."""

    def __init__(self, data, port, number, peers):
        super().__init__(data, port)
        self.number, self.peers = number, peers

    def command(self):
        urls = [f"http://127.0.0.1:{port}" for port in self.peers]
        cluster = ",".join(f"m{number}={url}" for number, url in enumerate(urls))
        client = f"http://{self.address}"
        return ["etcd", "--name", f"m{self.number}", "--data-dir", os.path.join(self.data, "data"), "--initial-cluster", cluster,
                "--initial-cluster-state", "new", "--listen-client-urls", client, "--advertise-client-urls", client,
                "--listen-peer-urls", urls[self.number], "--initial-advertise-peer-urls", urls[self.number],
                "--heartbeat-interval", "50", "--election-timeout", "500", "--log-level", "error"]

    def is_up(self):
        """Whether it answers a linearizable read."""
        connection = http.client.HTTPConnection("127.0.0.1", self.port, timeout=1)
        try:
            connection.request("POST", "/v3/kv/range", '{"key": "YQ=="}')
            return connection.getresponse().status == 200
        except (OSError, http.client.HTTPException):
            return False
        finally:
            connection.close()


class Servers:
    """The servers of one check, up; `with` ends them, whatever happens."""

    def __init__(self, word, room, count=3, has_journal=False):
        self.word = word
        ports = free_ports(2 * count)
        folders = [os.path.join(room, f"{word}{number}") for number in range(count)]
        if word == "redis":
            self.all = [RedisServer(folder, port, has_journal) for folder, port in zip(folders, ports)]
        else:
            self.all = [EtcdMember(folder, ports[number], number, ports[count:]) for number, folder in enumerate(folders)]

    def __enter__(self):
        try:
            for it in self.all:
                it.start()
            for it in self.all:
                self.wait(it)
        except BaseException:
            self.__exit__()
            raise
        return self

    def __exit__(self, *_):
        for it in self.all:
            it.kill()

    @staticmethod
    def wait(server):
        wait_until(server.is_up, 60, f"{server.data}: the server isn't up")

    @property
    def addresses(self):
        return [it.address for it in self.all]
