"""One handset under a hostile network: three processes move it and take it over from one another, while requests are answered,
lost before or after they are made, or made late, once their sender has given them up; who is next is drawn. In the end the cells
are those of the latest state, and no step was made in two ways."""
import random
import threading

import live
import stores
import track

from checks.handsets import Puts, must
from checks.stepping import SteppedMover, cells_of

WAITING, ENDED = "waiting", "ended"


class Network:
    """Holds each request of each process until it is drawn. A process is a thread, and runs alone between two requests."""

    def __init__(self, choose, losses):
        self.choose, self.losses = choose, losses
        self.turn = threading.Condition()
        self.state, self.verdict, self.late = {}, {}, []

    def ask(self, name, request):
        """What a process's request answers, by the network's verdict."""
        with self.turn:
            self.state[name] = WAITING
            self.turn.notify_all()
            self.turn.wait_for(lambda: name in self.verdict)
            verdict = self.verdict.pop(name)
        if verdict == "late":
            self.late.append(request)
        answer = request() if verdict in ("answered", "unheard") else None
        if verdict == "answered":
            return answer
        raise stores.Unreachable(f"the network: {verdict}")

    def end(self, name):
        with self.turn:
            self.state[name] = ENDED
            self.turn.notify_all()

    def play(self, names):
        """Lets one process after another go on by a request, until all have ended; and makes what is late now and then, and at
        last."""
        while True:
            with self.turn:
                if not self.turn.wait_for(lambda: all(self.state.get(name) in (WAITING, ENDED) for name in names), 60):
                    raise TimeoutError("a process neither asks nor ends")
                waiting = [name for name in names if self.state[name] == WAITING]
                if self.late and (not waiting or self.choose.random() < 0.2):
                    self.deliver_late()
                elif not waiting:
                    return
                else:
                    self.pass_on(self.choose.choice(waiting))

    def pass_on(self, name):
        lost = self.choose.random() < self.losses
        self.state[name] = "running"
        self.verdict[name] = self.choose.choice(["lost", "unheard", "late", "late"]) if lost else "answered"
        self.turn.notify_all()

    def deliver_late(self):
        request = self.late.pop(self.choose.randrange(len(self.late)))
        try:
            request()
        except stores.StoreError:
            pass


def route(store, network, name):
    """Sends all requests of a store's connections through the network."""
    for connection in getattr(store, "servers", None) or [store.members]:
        ask = connection.ask
        connection.ask = lambda *words, ask=ask, **named: network.ask(name, lambda: ask(*words, **named))
    return store


class Process(threading.Thread):
    """Takes the handset over, or has it, and moves it some times."""

    def __init__(self, name, directory, network, begin, moves):
        super().__init__(name=name)
        self.directory, self.network, self.begin, self.moves, self.failed = directory, network, begin, moves, None

    def run(self):
        try:
            handset = self.begin()
            handset.finish()
            for to in self.moves:
                if to != handset.place.node:
                    handset.move(to)
        except stores.Superseded:
            pass
        except Exception as error:
            self.failed = error
        finally:
            self.network.end(self.name)


def play(description, plan, choose, losses):
    """One schedule; how many puts were answered."""
    owner = live.Directory(plan, stores.connect(description))
    network = Network(choose, losses)
    handset = owner.join(3)
    connected = [route(stores.connect(description), network, f"p{number}") for number in range(3)]
    each = [live.Directory(plan, store, 1e9, 0.0, Puts()) for store in connected]
    handset.directory = each[0]
    begins = [lambda: handset] + [lambda it=it: it.take_over(handset.sub) for it in each[1:]]
    processes = [Process(f"p{number}", it, network, begin, [choose.randrange(plan.nodes) for _ in range(3)])
                 for number, (it, begin) in enumerate(zip(each, begins))]
    for it in processes:
        it.start()
    network.play([it.name for it in processes])
    for it in processes:
        it.join()
        if it.failed:
            raise it.failed
    made = {}
    for put, state, _ in (entry for it in each for entry in it.watcher.made):
        told = made.setdefault(state.step, (put, state.words))
        must(told == (put, state.words), f"step {state.step} was made as {told} and as {(put, state.words)}")
    latest = owner.take_over(handset.sub).latest
    must(latest.step >= max(made, default=0), f"step {max(made, default=0)} was answered as made, and the latest is {latest.step}")
    holding, is_own = cells_of(plan, latest.words[1:])
    must(is_own, f"the words of the latest state aren't those of its steps: {latest.words}")
    found = {cell: owner.store.look(cell)[0] for cell in holding}
    must(found == holding, f"the cells aren't those of the latest state: {set(found.items()) ^ set(holding.items())}")
    for it in (owner, *each):
        it.close()
    return len(made)


def check(servers, text, plan, count):
    description = stores.set_up(servers.word, servers.addresses, text, "s")
    answered = 0
    plain, track.Mover = track.Mover, SteppedMover
    try:
        for number in range(count):
            choose = random.Random(f"schedule {number}")
            answered += play(description, plan, choose, choose.choice([0.0, 0.1, 0.3]))
    finally:
        track.Mover = plain
    return (f"{count} schedules of three processes with one handset and a network that loses and delays: {answered} puts, each made "
            "in one way")
