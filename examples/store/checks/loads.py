"""Runs a load: starts its processes, starts those again that were killed, and makes faults meanwhile."""
import multiprocessing
import multiprocessing.connection
import random
import signal
import threading
import time

from checks.actors import LOST, play_caller, play_mover

FORK = multiprocessing.get_context("fork")


class Crew:
    """The processes of a load: (process, its function, its arguments). A mover that was killed is started again; now and then two
    of them are, of which one has to lose. Once one has come to its end, its next subscriber comes."""

    def __init__(self, load):
        self.load, self.running, self.kills, self.lost = load, {}, 0, 0
        self.done = set()

    def start(self, play, *arguments):
        process = FORK.Process(target=play, args=(self.load, *arguments))
        process.start()
        self.running[process.sentinel] = (process, play, arguments)

    def ended(self, sentinel):
        process, play, arguments = self.running.pop(sentinel)
        process.join()
        status = process.exitcode
        if play is play_caller or status not in (0, LOST, -signal.SIGKILL):
            if status:
                raise RuntimeError(f"{play.__name__} {arguments} ended with status {status}")
        elif status == 0:
            self.next_life(*arguments)
        else:
            self.kills += status != LOST
            self.lost += status == LOST
            self.start_again(arguments, 2 if status != LOST and random.random() < 0.2 else 1)

    def next_life(self, number, life):
        if (number, life) not in self.done and life + 1 < self.load.lives:
            self.start(play_mover, number, life + 1)
        self.done.add((number, life))

    def start_again(self, arguments, count):
        is_running = any((play, some) == (play_mover, arguments) for _, play, some in self.running.values())
        if not is_running and arguments not in self.done:
            for _ in range(count):
                self.start(play_mover, *arguments)

    def play(self):
        """Runs all to their ends."""
        for number in range(self.load.callers):
            self.start(play_caller, number)
        for number in range(self.load.movers):
            self.start(play_mover, number, 0)
        try:
            while self.running:
                for sentinel in multiprocessing.connection.wait(list(self.running), timeout=60):
                    self.ended(sentinel)
        finally:
            for process, _, _ in self.running.values():
                process.kill()
                process.join()


class Faults:
    """Makes faults while it is held open by `with`: kills one server after another and starts it again; and each third time holds
    one up for longer than a request waits, so that requests that were given up, and made again elsewhere, arrive late."""

    def __init__(self, servers, most, timeout):
        self.servers, self.most, self.timeout = servers, most, timeout
        self.kills, self.holds, self.ending = 0, 0, threading.Event()
        self.failed = None
        self.thread = threading.Thread(target=self.run)

    def run(self):
        try:
            while self.kills + self.holds < self.most and not self.ending.wait(0.4 if self.kills else 0.1):
                server = random.choice(self.servers.all)
                if (self.kills + self.holds) % 3 == 1:
                    self.hold(server)
                else:
                    self.kill(server)
                self.servers.wait(server)
        except Exception as error:
            self.failed = error

    def kill(self, server):
        server.kill()
        self.kills += 1
        time.sleep(0.3)
        server.start()

    def hold(self, server):
        server.process.send_signal(signal.SIGSTOP)
        self.holds += 1
        time.sleep(1.4 * self.timeout)
        server.process.send_signal(signal.SIGCONT)

    def __enter__(self):
        self.thread.start()
        return self

    def __exit__(self, *_):
        self.ending.set()
        self.thread.join()
        if self.failed:
            raise self.failed
