"""One handset a subscriber, and cells that somebody set by hand: requests that come late, twice, or from a process that has to
stop."""
import live
import stores
import track

from checks.records import Differs


def must(is_so, what):
    if not is_so:
        raise Differs(what)


def raised(call, *arguments):
    """The name of what a call raises, or 'made'."""
    try:
        call(*arguments)
    except (stores.StoreError, track.TrackError) as error:
        return type(error).__name__
    return "made"


class Puts(live.Watcher):
    """The puts that were made."""

    def __init__(self):
        self.made = []

    def put(self, put, state, ticket):
        self.made.append((put, state, ticket))


def directories(servers, plan, text, name, count=2):
    description = stores.set_up(servers.word, servers.addresses, text, name)
    each = [stores.connect(description, recording=True) for _ in range(count)]
    return [live.Directory(plan, store, 2.0, watcher=Puts()) for store in each]


def raw(servers, key, value):
    """Writes a cell's key by hand."""
    for address in servers.addresses[:1 if servers.word == "etcd" else None]:
        if servers.word == "redis":
            import redis
            host, port = address.split(":")
            with redis.Redis(host, int(port)) as client:
                # A node's cells are at one server; elsewhere nobody reads the key.
                client.set(key.replace("/cell/", ":cell:", 1), value)
        else:
            import etcd_store
            members = etcd_store.Members(servers.addresses, 5.0)
            members.ask("txn", {"compare": [], "success": [etcd_store.writes(key, value)], "failure": []})
            members.close()


def check_repeats(first, handset):
    """Puts that come again, late, or changed; and each cell is what it was."""
    store, (put, state, ticket) = first.store, first.watcher.made[-1]
    word = store.look(put.cell)[0]
    earlier = next((it for it in reversed(first.watcher.made[:-1]) if it[0].cell.node == put.cell.node), None)
    must(store.put(put, handset.sub, state) == ticket, "a put that is made again isn't answered as the first")
    table = [
        (put._replace(word=word + 1), state._replace(words=(*state.words, 1)), "Late"),
        (put, state._replace(step=state.step - 1), "Late"),
        (put, state._replace(epoch=state.epoch - 1), "Superseded"),
        (put, state._replace(epoch=state.epoch - 1, step=state.step + 1), "Superseded"),
    ]
    if earlier:
        table.append((earlier[0], earlier[1], "Late"))
    for again, changed, wanted in table:
        found = raised(store.put, again, handset.sub, changed)
        stands = f"where {state.epoch}, {state.step} stands"
        must(found == wanted, f"a put of {changed.epoch}, {changed.step} {stands} is {found}, not {wanted}")
        must(store.look(put.cell)[0] == word, "a put that was refused has changed its cell")
    return len(table) + 1


def check_openings(first, handset, node):
    """An opening that comes late, after moves, changes nothing."""
    plan, store = first.plan, first.store
    before = [store.look(put.cell)[0] for put in plan.opening(handset.sub, node)]
    store.open(handset.sub, plan.opening(handset.sub, node), stores.State(1, 0, (0,)))
    must([store.look(put.cell)[0] for put in plan.opening(handset.sub, node)] == before, "a late opening has changed cells")


def check(servers, text, plan):
    first, second = directories(servers, plan, text, "h")
    must(raised(first.take_over, 7) == "NoHandset", "a subscriber that never came is taken over")
    must(first.find(0, 0) == live.Unknown(0), "a subscriber that never came is found")
    handset = first.join(3)
    tried = 0
    for to in (5, 9, 12, 0, 3):
        handset.move(to)
        tried += check_repeats(first, handset)
    check_openings(first, handset, 3)
    # Two processes with one handset.
    other = second.take_over(handset.sub)
    must((other.place, other.calls) == (handset.place, handset.calls), "a handset comes back as another")
    must(raised(handset.move, 1) == "Superseded", "the first process goes on beside the second")
    must(raised(handset.finish) == "Superseded", "the first process forgets that it has to stop")
    other.move(1)
    must(first.find(8, other.sub).node == 1, "the second process's move isn't found")
    tried += check_repeats(second, other)
    must(raised(first.store.put, *[second.watcher.made[-1][0], other.sub, handset.latest]) == "Superseded", "a late put is made")
    # Two restarts at once: one wins, and a raise that is made again is answered as made.
    epoch = first.store.highest_epoch(other.sub) + 1
    must(raised(first.store.raise_epoch, other.sub, epoch, "one") == "made", "a higher epoch is refused")
    must(raised(first.store.raise_epoch, other.sub, epoch, "one") == "made", "a raise that is made again is refused")
    must(raised(second.store.raise_epoch, other.sub, epoch, "two") == "Superseded", "two processes have one epoch")
    must(raised(second.store.raise_epoch, other.sub, epoch - 1, "two") == "Superseded", "an older epoch is raised")
    must(raised(other.move, 2) == "Superseded", "a process goes on after another took its handset over")
    third = second.take_over(other.sub)
    third.leave()
    answer = first.find(4, third.sub)
    must(answer.off and answer.node == 1, "who has left isn't off where it was")
    must(second.join(2).sub == third.sub + 1, "a number is used again")
    if servers.word == "redis":
        many = [second.join(node % plan.nodes) for node in range(70)]
        many[-1].move(12)
        must(first.find(0, many[-1].sub).node == 12 and many[-1].sub == third.sub + 71, "of many subscribers the last isn't found")
    return f"one handset: {tried} puts made again or late, 3 handsets taken over, two restarts at once: one wins"


def check_cells(servers, text, plan):
    first, second = directories(servers, plan, text, "e")
    handset = first.join(3)
    cell = next(plan.opening(handset.sub, 3)).cell
    good = first.store.look(cell)[0]
    bad = [b"rubbish", b"", b"-1", b"18446744073709551616", b"\xff\x00", b"18446744073709551615", str((1 << 64) - 2).encode()]
    find = live.Find(second, 3, handset.sub)
    for value in bad:
        raw(servers, f"e/cell/{cell}", value)
        found = raised(find.run)
        must(found == "BadCell", f"a cell that holds {value!r} is {found}")
    raw(servers, f"e/cell/{cell}", str(good))
    must(find.run().node == 3, "a find doesn't go on once its cell is mended")
    return f"{len(bad)} words that nothing packs to: each is told, and the find goes on once the cell is mended"
