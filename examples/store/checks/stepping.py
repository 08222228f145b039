"""A mover whose state also tells the steps that it began, and how many puts of the last one are made: so a check can say what
the cells hold, and whether the library's own words are those of a mover that made these steps."""
import track


class SteppedMover(track.Mover):
    def __init__(self, plan, sub, node):
        super().__init__(plan, sub, node)
        self.begun, self.puts = [sub, node], 0

    def move(self, to):
        super().move(to)
        self.begun.append(to + 2)
        self.puts = 0

    def switch(self, off):
        super().switch(off)
        self.begun.append(int(off))
        self.puts = 0

    def made(self):
        super().made()
        self.puts += 1

    def save(self):
        own = super().save()
        return [len(own), *own, self.puts, *self.begun]

    @classmethod
    def load(cls, plan, words):
        count = words[0]
        mover = super().load(plan, words[1:1 + count])
        mover.puts, *mover.begun = words[1 + count:]
        return mover


def cells_of(plan, words):
    """The cells that the steps of a state wrote, with what they hold; and whether the library's words are those of the steps."""
    count, own = words[0], list(words[1:1 + words[0]])
    puts, sub, node, *begun = words[1 + count:]
    cells, mover = dict(plan.opening(sub, node)), PLAIN(plan, sub, node)
    for place, step in enumerate(begun):
        mover.move(step - 2) if step >= 2 else mover.switch(bool(step))
        made = 0
        while (put := mover.next()) and (place + 1 < len(begun) or made < puts):
            cells[put.cell] = put.word
            mover.made()
            made += 1
    return cells, mover.save() == own


PLAIN = track.Mover
