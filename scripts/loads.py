"""Calls one after another or at the same time, and the input that has them: for made networks and made loads."""
import directory
import texts


class Draw:
    """Numbers that look like chance, the same at every run: of a seed."""

    def __init__(self, seed):
        self.state = seed

    def below(self, most):
        self.state = (self.state * 6364136223846793005 + 1442695040888963407) % 2**64
        return (self.state >> 33) % most

    def pick(self, some):
        return some[self.below(len(some))]


class Story:
    """An input in the making: calls are told as they happen, and each runs at once, so that the order is that of the tale."""

    def __init__(self, setting, edges, homes, callers):
        self.setting, self.edges, self.homes, self.callers = setting, edges, homes, callers
        self.machine = directory.Machine(setting, homes, [[] for _ in range(len(homes) + callers)])
        self.lines = []

    def place(self, sub):
        return self.machine.courses[sub].at

    def note(self, words):
        self.lines.append("# " + words)

    def begin(self, line):
        """Gives a call to its actor, and writes it down."""
        word, actor, *numbers = line.split()
        actor, numbers = int(actor), [int(number) for number in numbers]
        call = texts.Find(*numbers) if word == "find" else texts.Step(word, numbers[0] if numbers else None)
        self.machine.actors[actor].script.append(call)
        self.lines.append(line)
        return actor

    def tell(self, line):
        """A call that runs alone."""
        self.machine.call(self.begin(line))

    def together(self, *lines):
        """Calls of different actors that run at the same time, visit by visit in turn."""
        actors = [self.begin(line) for line in lines]
        while any([self.machine.turn(actor) for actor in actors]):
            pass

    def text(self, head, format_number, k):
        """The input."""
        order = self.machine.order
        lines = head + [f"track {format_number}", f"nodes {self.setting.plan.nodes}", f"k {k}"]
        lines += [f"edge {a} {b} {weight}" for a, b, weight in self.edges]
        lines += [f"sub {home}" for home in self.homes] + [f"callers {self.callers}"] + self.lines
        lines += ["order " + " ".join(map(str, order[at:at + 64])) for at in range(0, len(order), 64)]
        return "\n".join(lines) + "\n"


def story_on(nodes, edges, k, homes, callers):
    """A story on a network."""
    network = directory.Network(nodes, edges)
    return Story(directory.Setting(network, directory.plan_of(network, k)), edges, homes, callers)
