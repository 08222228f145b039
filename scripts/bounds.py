"""What the finds of a report may weigh, and which moves those that are to be made again are charged to (docs/DIRECTORY.md, "What
every find pays"), by the input, the plan and the report alone."""
from collections import namedtuple

import directory
import texts

Move = namedtuple("Move", "start to weight level gathered commit confirm")
Deed = namedtuple("Deed", "ticket put number")  # number: of the put's move, and 0 of a switch
Priced = namedtuple("Priced", "find first_apart last_apart least_apart first_open last_open within")


class Story:
    """An input with its plan and its report: the moves of each subscriber, and its finds with what their price is made of."""

    def __init__(self, said, setting, report, own_stretches):
        self.said, self.setting, self.report, self.own_stretches = said, setting, report, own_stretches
        self.network, self.top = setting.network, setting.top
        self.moves = [self.moves_of(sub) for sub in range(len(self.said.homes))]
        self.deeds = [self.deeds_of(sub) for sub in range(len(self.said.homes))]
        self.finds = [self.priced(call) for call in self.report.calls if isinstance(call, (texts.Found, texts.Again))]

    def moves_of(self, sub):
        """The moves of a subscriber, each with the highest level that it renews and what that had gathered with it."""
        own = [ticket for ticket, actor in enumerate(self.report.order) if actor == sub]
        gathered, moves = [0] * (self.top + 1), []
        for call in self.report.calls:
            if isinstance(call, texts.Moved) and call.actor == sub:
                gathered = [so_far + call.weight for so_far in gathered]
                level = max((i for i, so_far in enumerate(gathered) if so_far >= self.setting.threshold(i)), default=0)
                confirm = min(ticket for ticket in own if ticket > call.commit)
                moves.append(Move(call.start, call.to, call.weight, level, gathered[level], call.commit, confirm))
                gathered[:level + 1] = [0] * (level + 1)
        return moves

    def tickets_of(self, actor):
        """The tickets of an actor's visits."""
        return [ticket for ticket, visitor in enumerate(self.report.order) if visitor == actor]

    def deeds_of(self, sub):
        """The puts of a subscriber, each with its ticket and the number of its move."""
        course, tickets, deeds = directory.Course(self.setting, self.said.homes[sub]), iter(self.tickets_of(sub)), []
        for call in self.report.calls:
            if isinstance(call, texts.Moved) and call.actor == sub:
                puts, _ = course.move(call.to)
                deeds += [Deed(ticket, put, course.number) for put, ticket in zip(puts, tickets)]
            elif isinstance(call, texts.Switched) and call.actor == sub:
                deeds += [Deed(ticket, put, 0) for put, ticket in zip(course.switch(call.off), tickets)]
        return deeds

    def erased(self, sub, number, level=None):
        """The tickets at which a move erases an address, of a level where one is named."""
        return [deed.ticket for deed in self.deeds[sub] if deed.number == number and deed.put.kind == "entry"
                and deed.put.word is None and level in (None, deed.put.place[0])]

    def emptied(self, sub):
        """The puts by which a subscriber's moves empty a mark."""
        return [deed for deed in self.deeds[sub] if deed.put.word == ("Empty",)]

    def chase_began(self, find):
        """The ticket of the look at which a find's chase began, by its looks made once more; nothing where it never chased."""
        walk, cells = directory.Walk(self.setting, find.start, find.sub), directory.Cells(self.setting, self.said.homes)
        deeds = list(self.deeds[find.sub])
        for ticket in self.tickets_of(find.actor):
            if find.first <= ticket <= find.last:
                while deeds and deeds[0].ticket < ticket:
                    cells.put(find.sub, deeds.pop(0).put)
                walk.step(cells, ticket)
                if walk.place[0] == "chase":
                    return ticket
                if walk.answer:
                    return None
        return None

    def standing(self, sub, ticket):
        """Where a subscriber stands before a ticket."""
        return next((move.to for move in reversed(self.moves[sub]) if move.commit < ticket), self.said.homes[sub])

    def open_passage(self, sub, ticket):
        """The passage that is open before a ticket, 0 where none is."""
        return sum(move.weight for move in self.moves[sub] if move.commit < ticket <= move.confirm)

    def priced(self, find):
        """A find with its distances, its open passages, and the moves that were committed within it."""
        within = [move for move in self.moves[find.sub] if find.first < move.commit < find.last]
        stands = [self.standing(find.sub, find.first)] + [move.to for move in within]
        apart = [self.network.distance(find.start, node) for node in stands]
        return Priced(find, apart[0], apart[-1], min(apart), self.open_passage(find.sub, find.first),
                      self.open_passage(find.sub, find.last), within)


def bounds_of(story, priced):
    """What a find may weigh, by each bound on it."""
    stretch, within, passages = story.setting.plan.stretch, priced.within, 2 * priced.first_open
    gathered, moved = sum(move.gathered for move in within), sum(move.weight for move in within)
    reach = max([priced.first_apart] + [story.setting.threshold(move.level) for move in within])
    yield "what the moves within had gathered", stretch * (priced.least_apart + gathered) + passages
    yield "the threshold that they reached", (stretch - 7) * reach + passages + moved
    yield "the moves within, each of which doubles", (stretch - 7) * 2 ** len(within) * (priced.least_apart + moved) + passages
    yield "the plan's own stretch of any find", story.own_stretches.any_find * reach + passages + moved
    if not within:
        yield "the plan's own stretch", story.own_stretches.own * priced.first_apart + passages


def least_bound(story, priced):
    """The least of the bounds on a find: by what, and what it may weigh."""
    return min(bounds_of(story, priced), key=lambda bound: bound[1])


Charge = namedtuple("Charge", "number commits why")  # the move's number, else the commits within a chase, or why there is neither


def charged_to_top(story, priced):
    """The move that an Again is charged to which met no address."""
    find = priced.find
    for number, move in enumerate(story.moves[find.sub], 1):
        if move in priced.within and any(find.first < t < find.last for t in story.erased(find.sub, number, story.top)):
            return Charge(number, [], None)
    return Charge(0, [], "no entry, and no move within that erases an address of the top level")


def charged_to_purge(story, find, since):
    """The move that an Again is charged to which read that a node is empty."""
    node = int(find.why.split()[1])
    emptied = [deed for deed in story.emptied(find.sub) if deed.ticket < find.last]
    number = max((deed for deed in emptied if deed.put.place == node), key=lambda deed: deed.ticket, default=Deed(0, None, 0)).number
    if not number:
        return Charge(0, [], f"empty, and no move emptied node {node} before")
    first = min(deed.ticket for deed in emptied if deed.number == number)
    erased = story.erased(find.sub, number)
    if story.moves[find.sub][number - 1].level < story.top or first < since or (erased and max(erased) < since):
        return Charge(number, [], f"empty since move {number}, which empties from {first} on and erases at {erased}, chased since {since}")
    return Charge(number, [], None)


def charge(story, priced):
    """What an Again is charged to."""
    find = priced.find
    if find.why == "none":
        return charged_to_top(story, priced)
    since = story.chase_began(find)
    if since is None:
        return Charge(0, [], f"{find.why}, and the directory's own find by these tickets didn't chase")
    if find.why != "chased":
        return charged_to_purge(story, find, since)
    commits = [move.commit for move in priced.within if since < move.commit]
    return Charge(0, commits, None if len(commits) >= 3 else f"chased, with {len(commits)} commits since {since}")
