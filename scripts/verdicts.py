"""What `check` says of anyone's report, with why: its first flaw by the five parts of docs/FORMATS.md, "The checker"."""
import directory
from texts import Find

RULES = {
    "form": "a report has a line for each call of the input, by actor and in the order of the text, then order lines of 64 "
            "numbers, and 'end'",
    "tickets": "the run of a call is made of its actor's tickets after the call before it, up to its last; its line names the "
               "first and the last of them, a move's commit lies between, and each ticket is in a run",
    "place": "a find names where its subscriber stood at the find's last ticket, how many of its moves were committed by then, "
             "and 'off' where it was off",
    "again": "a find is to be made again only where a move of its subscriber has a ticket between its first and its last",
    "weight": "a move weighs its distance; a find that no move met weighs at most the stretch times the distance, and twice an "
              "open passage",
}
MOST_NUMBER = 1 << 63


class Flaw(Exception):
    """The first flaw of a report: the line, the part that it breaks, and why in words."""

    def __init__(self, line, cause, why):
        super().__init__(why)
        self.line, self.cause, self.why = line, cause, why

    def text(self):
        return f"no {self.line} {self.cause}"


def number(field):
    """The number of a strict field, or None."""
    plain = field.isascii() and field.isdigit() and (field == "0" or field[0] != "0")
    return int(field) if plain and int(field) < MOST_NUMBER else None


def some(tickets):
    """Tickets in words, the first ones where they are many."""
    told = ", ".join(map(str, tickets[:6])) + (", .." if len(tickets) > 6 else "")
    return told or "none"


class Line:
    """The line of a call: what it tells, and the run of its tickets once that is known."""

    def __init__(self, at, actor, call, told):
        self.at, self.actor, self.call = at, actor, call
        self.told, self.run = told, []

    def flaw(self, cause, why):
        return Flaw(self.at, cause, why)

    @property
    def last(self):
        return self.told["ticket"] if "ticket" in self.told else self.told["last"]


class Judge:
    """Reads a report of an input, and raises its first flaw."""

    def __init__(self, said, report):
        self.said = said
        self.network = directory.Network(said.nodes, said.edges)
        self.plan = directory.plan_of(self.network, said.k)
        self.raw = report.decode("latin-1").split("\n")
        self.at, self.lines, self.order, self.first_order = 0, [], [], None
        self.moves = {sub: [] for sub in range(len(said.homes))}
        self.switches = {sub: [] for sub in range(len(said.homes))}

    def judge(self):
        self.read_calls()
        self.read_order()
        self.find_runs_and_test()
        self.test_strangers()

    # Form.

    def fields(self, wanted):
        """The fields of the next line; a flaw where there is none or it isn't whole."""
        self.at += 1
        if self.at > len(self.raw) - 1:
            left = self.raw[-1] if self.at == len(self.raw) else ""
            why = "the last line has no LF at its end" if left else f"the report ends, and {wanted} is missing"
            raise Flaw(self.at, "form", why)
        return self.raw[self.at - 1].split(" ")

    def match(self, form, fields, wanted):
        """What a line tells, by a form of words, wanted numbers as '=3' and named ones; a flaw where it hasn't the form."""
        told, parts = {}, form.split(" ")
        good = len(parts) == len(fields)
        for part, field in zip(parts, fields):
            value = number(field)
            if part.startswith("="):
                good = good and value == int(part[1:])
            elif part.isupper():
                good = good and value is not None
                told[part.lower()] = value
            else:
                good = good and part == field
        if not good:
            raise Flaw(self.at, "form", f"{wanted} is wanted here, in the form '{form.replace('=', '')}'")
        return told

    def read_calls(self):
        places = [[home, 0] for home in self.said.homes]
        for actor, script in enumerate(self.said.scripts()):
            for call in script:
                reader = self.read_find if isinstance(call, Find) else self.read_step
                told = reader(actor, call, places)
                self.lines.append(Line(self.at, actor, call, told))

    def read_step(self, sub, call, places):
        node, count = places[sub]
        wanted = f"the line of '{call.word}' by subscriber {sub}"
        fields = self.fields(wanted)
        if call.word == "move":
            places[sub] = [call.node, count + 1]
            form = f"move ={sub} ={count + 1} ={node} ={call.node} weight W first FIRST commit COMMIT last LAST"
            return {"start": node, "to": call.node, **self.match(form, fields, wanted)}
        return self.match(f"switch ={sub} {call.word} ={node} number ={count} ticket TICKET", fields, wanted)

    def read_find(self, caller, call, _):
        wanted = f"the line of the find by {caller} from {call.start} for {call.sub}"
        fields = self.fields(wanted)
        head = f"={caller} ={call.start} ={call.sub}"
        tail = "weight W first FIRST last LAST"
        if fields[0] == "again":
            why = fields[4] if len(fields) > 4 and fields[4] in ("empty", "none", "chased") else "none"
            told = self.match(f"again {head} {'empty NODE' if why == 'empty' else why} {tail}", fields, wanted)
        else:
            word = "off" if fields[0] == "off" else "find"
            level = "-" if len(fields) > 9 and fields[9] == "-" else "LEVEL"
            told = self.match(f"{word} {head} at NODE number Q level {level} {tail}", fields, wanted)
        if told.get("node", 0) >= self.said.nodes or told.get("level", 0) >= len(self.plan.levels):
            raise Flaw(self.at, "form", "it names a node or a level that there isn't")
        return {"word": fields[0], **told}

    def read_order(self):
        short = False
        while True:
            fields = self.fields("'end' or an order line")
            if fields[0] != "order":
                break
            numbers = [number(field) for field in fields[1:]]
            if short or not 1 <= len(numbers) <= 64 or None in numbers:
                raise Flaw(self.at, "form", "an order line has 64 numbers, and the last one 1 to 64")
            self.first_order = self.first_order or self.at
            self.order += numbers
            short = len(numbers) < 64
        self.match(f"end ={len(self.order)}", fields, f"'end {len(self.order)}', since the order has so many visits,")
        if self.at < len(self.raw) - 1 or self.raw[-1]:
            raise Flaw(self.at + 1, "form", "nothing comes after 'end'")

    # The other parts.

    def find_runs_and_test(self):
        tickets = {}
        for ticket, actor in enumerate(self.order):
            tickets.setdefault(actor, []).append(ticket)
        self.tickets = tickets
        last_of = {line.actor: line for line in self.lines}
        done = {}
        for line in self.lines:
            own = tickets.get(line.actor, [])
            line.run = [ticket for ticket in own[done.get(line.actor, 0):] if ticket <= line.last]
            done[line.actor] = done.get(line.actor, 0) + len(line.run)
            self.test_run(line)
            if last_of[line.actor] is line and done[line.actor] < len(own):
                raise line.flaw("tickets", f"actor {line.actor} has the tickets {some(own[done[line.actor]:])} after its last call")
            (self.test_find if isinstance(line.call, Find) else self.test_step)(line)

    def test_run(self, line):
        told, run = line.told, line.run
        if not run:
            raise line.flaw("tickets", f"no ticket up to {line.last} is left for this call of actor {line.actor}")
        if "ticket" in told:
            if run != [told["ticket"]]:
                raise line.flaw("tickets", f"a switch has one ticket, and {told['ticket']} ends a run of {some(run)}")
            return
        if (run[0], run[-1]) != (told["first"], told["last"]):
            raise line.flaw("tickets", f"the run of this call is {some(run)}; it begins at {run[0]} and ends at {run[-1]}, and the "
                                       f"line says {told['first']} and {told['last']}")
        commit = told.get("commit")
        if commit is not None and (commit not in run[1:] or commit == run[-1]):
            raise line.flaw("tickets", f"the commit {commit} isn't among the tickets of the run between its first and its last")

    def test_step(self, line):
        if line.call.word != "move":
            self.switches[line.actor].append(line)
            return
        far = self.network.distance(line.told["start"], line.told["to"])
        self.moves[line.actor].append(line)
        if line.told["w"] != far:
            way = f"from {line.told['start']} to {line.told['to']}"
            raise line.flaw("weight", f"the distance {way} is {far}, and the line says {line.told['w']}")

    def test_find(self, line):
        told, sub = line.told, line.call.sub
        met = [ticket for move in self.moves[sub] for ticket in move.run if told["first"] < ticket < told["last"]]
        if told["word"] == "again":
            if not met:
                raise line.flaw("again", f"no move of subscriber {sub} has a ticket between {told['first']} and {told['last']}")
            return
        made = [move for move in self.moves[sub] if move.told["commit"] < told["last"]]
        self.test_place(line, made)
        if met:
            return
        far = self.network.distance(line.call.start, told["node"])
        passage = 0
        if made:
            confirm = next(ticket for ticket in made[-1].run if ticket > made[-1].told["commit"])
            passage = made[-1].told["w"] if confirm > told["last"] else 0
        most = self.plan.stretch * far + 2 * passage
        if told["w"] > most:
            raise line.flaw("weight", f"it weighs {told['w']}, and may weigh {most}: {self.plan.stretch} times the distance {far}, and "
                                      f"twice the open passage {passage}; no move of subscriber {sub} met it")

    def test_place(self, line, made):
        told, sub = line.told, line.call.sub
        node = made[-1].told["to"] if made else self.said.homes[sub]
        if (told["node"], told["q"]) != (node, len(made)):
            raise line.flaw("place", f"at ticket {told['last']} subscriber {sub} stands at {node} with {len(made)} moves committed, and "
                                     f"the line says {told['node']} and {told['q']}")
        before = [switch for switch in self.switches[sub] if switch.told["ticket"] < told["last"]]
        off = bool(before) and before[-1].call.word == "off"
        if off != (told["word"] == "off"):
            raise line.flaw("place", f"at ticket {told['last']} subscriber {sub} is {'off' if off else 'on'}")

    def test_strangers(self):
        """Tickets of actors without a call."""
        callers = {line.actor for line in self.lines}
        strange = sorted(set(self.tickets) - callers)
        if strange:
            tickets = some(self.tickets[strange[0]])
            raise Flaw(self.first_order, "tickets", f"actor {strange[0]} has no call, and has the tickets {tickets}")


def cut_at_report(text):
    """The input part and the report of a text for `check`; no report where no line is the word alone."""
    lines = text.split(b"\n")
    for at, raw in enumerate(lines):
        line = raw[:-1] if raw.endswith(b"\r") else raw
        if line.strip(b" \t") == b"report":
            return b"".join(each + b"\n" for each in lines[:at]), b"\n".join(lines[at + 1:]), at + 1
    return text, None, len(lines)


def first_flaw(said, report):
    """The first flaw of a report, or None where it is sound."""
    try:
        Judge(said, report).judge()
    except Flaw as flaw:
        return flaw
    return None
