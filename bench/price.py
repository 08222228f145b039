#!/usr/bin/env python3
"""What moves and finds cost with the directory, and with what people use in its place: a home register, forwarding pointers alone,
and telling everybody. docs/PRICE.md says on which networks and loads, and how all is weighed."""
import argparse
import os
import sys
from concurrent.futures import ProcessPoolExecutor

sys.dont_write_bytecode = True
TOP = os.path.join(os.path.dirname(os.path.realpath(__file__)), "..")
sys.path.insert(0, os.path.join(TOP, "scripts"))
import price_plots as plots  # noqa: E402
import price_prose as prose  # noqa: E402
import price_tables as tables  # noqa: E402
from price_head import head_of  # noqa: E402
from price_networks import BLOCK, PRICED, UNITS  # noqa: E402
from prices import KINDS, MOVERS, RIVALS, Cover, Ground, cover_name, covers_of, read_rows, rows_of, rows_text  # noqa: E402
from program import Program  # noqa: E402
from texts import BadText, ends_clearly, load_input, number  # noqa: E402

HELP = """\
  bench/price.py INPUT [--k K,..]   prints tables of the network of an input of yours, over loads that are made for it: its own
                                    subscribers and calls aren't used. About two seconds a cover and kind of subscribers.
  bench/price.py --check            the short form, which the gate runs: the head and tables of docs/PRICE.md and the plots of
                                    docs/pictures/ are those of the rows of docs/pictures/price.csv, no row is missing, and the rows of a sample of
                                    loads are weighed anew. About half a minute of one processor.
  bench/price.py --check-all        the same with all rows weighed anew: as long as --write
  bench/price.py --write            weighs all rows and makes the tables and the plots. About a quarter of an hour of one processor;
                                    --jobs shares it among several.
  bench/price.py --draw             makes the tables and the plots of the rows that are stored

It ends with status 1 and one line where something isn't as it should be. The variable TRACK names the program that plans, replays
and tells costs, ./track where it isn't set; for --check, --check-all and --write that is one that was proved."""

ROWS, PAGE = "docs/pictures/price.csv", "docs/PRICE.md"
SIZES = {"grid": [f"grid-{n}" for n in (16, 64, 256, 1024)], "geometric": [f"geometric-{n}" for n in (16, 64, 256, 1024)]}
LARGE = ("grid-1024", "uneven-1024", "geometric-1024")
CURVES = ("nsfnet", "geant", "ring", "streets", *LARGE)
TABLED = [name for name in PRICED if not name.startswith("unit")]
SMALL = ("nsfnet", "geant", "ring", "grid-16", "grid-64", "geometric-16", "geometric-64")
UNIT_COVERS = [Cover(2, False), Cover(4, True)]
CHOICE = ("k 2", "k 3", "k 4", "k 8", "mean 2", "mean 4", "mean 8")
# What the short form weighs anew.
SAMPLE = [("nsfnet", "away", [Cover(2, False), Cover(1, True)]), ("ring", "settled", [Cover(3, False), Cover(8, True)]),
          ("geometric-64", "anywhere", [Cover(4, False)]), ("unit-50", "away", [Cover(2, False)]),
          ("geometric-1024", "settled", [Cover(4, True)])]


def loads():
    """All that is priced: network, movers and covers, the longest first."""
    wanted = []
    for name, make in PRICED.items():
        unit = name.startswith("unit")
        nodes = make()[0]
        wanted += [(nodes, name, movers, UNIT_COVERS if unit else covers_of(nodes)) for movers in (("away",) if unit else MOVERS)]
    return [load[1:] for load in sorted(wanted, key=lambda load: -load[0])]


def weigh(name, movers, covers, program):
    return rows_of(Ground(name, *PRICED[name]()), movers, covers, program)


def weigh_all(program, jobs, look=lambda rows: None):
    """All rows, in the order of the networks; the rows of each load are looked at once they are weighed."""
    with ProcessPoolExecutor(jobs) as pool:
        waiting = {load[:2]: pool.submit(weigh, *load, program) for load in loads()}
        try:
            for count, (load, rows) in enumerate(waiting.items(), 1):
                look(rows.result())
                tell(f"{count} of {len(waiting)}: {' '.join(load)}")
        except BaseException:
            pool.shutdown(cancel_futures=True)
            raise
    return [row for name in PRICED for movers in MOVERS if (name, movers) in waiting for row in waiting[name, movers].result()]


def blocks_of(prices):
    """The tables of the page, and sentences with numbers, by the names of their marks."""
    below = {unit: (BLOCK // unit - 1).bit_length() for unit in (*UNITS, BLOCK)}
    units = [(unit, f"unit-{unit}" if unit != BLOCK else "grid-256", below[unit]) for unit in (*UNITS, BLOCK)]
    blocks = {"head": head_of(prices, TABLED), "cheapest": tables.cheapest_table(prices, TABLED),
              "break-even": tables.break_even_table(prices, TABLED), "choosing": tables.choosing_table(prices, TABLED),
              "bounds": tables.bounds_table(prices, TABLED), "units": tables.units_table(prices, units),
              "halves": tables.halves_words(prices.rows),
              "choice": tables.choice_table(prices, CHOICE, SMALL, [name for name in TABLED if name not in SMALL])}
    sizes = {"small": SMALL, "large": [name for name in TABLED if name not in SMALL]}
    blocks |= {"unknown": prose.unknown_words(prices, sizes, CHOICE), "degree": prose.degree_words(prices),
               "dearest": prose.dearest_words(prices, TABLED), "unit": prose.units_words(prices, units), "loads": prose.loads_words()}
    for kind in KINDS:
        blocks[f"away-{kind}"] = tables.ratio_table(prices, TABLED, "away", kind)
    for name in ("nsfnet", *LARGE):
        blocks[f"weights-{name}"] = tables.weights_table(prices, name, "away")
    return blocks


def page_with(page, blocks):
    """The page, with each table between its marks."""
    for name, text in blocks.items():
        begin, end = f"<!-- made by bench/price.py: {name} -->\n", f"<!-- end of {name} -->\n"
        if page.count(begin) != 1 or page.count(end) != 1:
            raise BadText(f"{PAGE} has lost the two comments between which the table '{name}' stands")
        page = page[:page.index(begin) + len(begin)] + "\n" + text + "\n\n" + page[page.index(end):]
    return page


def texts_of(rows):
    """What is made of the rows: the page and the plots, by their paths."""
    prices = tables.Prices(rows)
    with open(PAGE, encoding="utf-8") as page:
        texts = {PAGE: page_with(page.read(), blocks_of(prices))}
    for name in CURVES:
        texts[f"docs/pictures/price-{name}.svg"] = plots.break_even_plot(prices, name)
    texts["docs/pictures/price-covers.svg"] = plots.covers_plot(prices, LARGE, CHOICE)
    texts["docs/pictures/price-sizes.svg"] = plots.sizes_plot(prices, SIZES, CHOICE)
    return texts


def stored_rows():
    with open(ROWS, encoding="utf-8") as file:
        return read_rows(file.read())


def store(path, text):
    with open(path, "w", encoding="utf-8") as file:
        file.write(text)


def check(rows):
    """That the page and the plots are made of the rows, and that no row is missing."""
    wanted = [(name, movers, way) for name, movers, covers in loads() for way in [*map(cover_name, covers), *RIVALS]]
    if sorted(wanted) != sorted((row.network, row.movers, row.way) for row in rows):
        raise BadText(f"{ROWS} hasn't the rows of all loads, each once")
    for path, text in texts_of(rows).items():
        with open(path, encoding="utf-8") as file:
            if file.read() != text:
                raise BadText(f"{path} isn't what the script makes")


def compare(stored, weighed):
    """That rows are as they are weighed."""
    for row in weighed:
        if row not in stored:
            raise BadText(f"{ROWS}: {row.way} for {row.movers} subscribers on {row.network} isn't what is weighed")


def check_weights(rows, program, jobs):
    """That rows are as they are weighed: those of a sample, or by so many processes all."""
    stored = set(rows)
    if jobs:
        weighed = weigh_all(program, jobs, lambda some: compare(stored, some))
    else:
        weighed = [row for name, movers, covers in SAMPLE for row in weigh(name, movers, covers, program)]
        compare(stored, weighed)
    print(f"prices: {len(rows)} rows, {len(weighed)} of them weighed anew")


def tell(words):
    """What comes next, on standard error."""
    print(words, file=sys.stderr, flush=True)


def price_input(path, ks, program):
    """Prints the tables of an input's network."""
    given, _ = load_input(path)
    ks = ks or {given.k, 2, 4, 8}
    if given.nodes < 2:
        raise BadText("a network of one node has no moves and no finds to price")
    if 1 in ks and given.nodes > 256:
        raise BadText("k is 1, and above 256 nodes it has to be 2 at least")
    ground = Ground(os.path.basename(path), given.nodes, given.edges)
    covers = [Cover(k, mean) for mean in (False, True) for k in sorted(ks)]
    prices = tables.Prices([row for movers in MOVERS for row in rows_of(ground, movers, covers, program, tell)])
    print(f"From how many finds a move the directory costs less than each, over its best cover here:\n\n"
          f"{tables.break_even_table(prices, [ground.name])}")
    for movers in MOVERS:
        print(f"\nSubscribers that are {movers}: weights over distances\n\n{tables.weights_table(prices, ground.name, movers)}")


def numbers_of(words):
    """The trade-offs that an option names."""
    values = [number(word) for word in words.split(",")]
    if not all(value is not None and 1 <= value <= 8 for value in values):
        raise argparse.ArgumentTypeError(f"'{words}' isn't a list of numbers of 1 to 8, as 2,4")
    return set(values)


def count_of(word):
    """How many processes an option names."""
    if not number(word):
        raise argparse.ArgumentTypeError(f"'{word}' isn't a number of processes")
    return number(word)


def words():
    reader = argparse.ArgumentParser(usage=argparse.SUPPRESS, description=__doc__, epilog=HELP,
                                     formatter_class=argparse.RawDescriptionHelpFormatter)
    task = reader.add_mutually_exclusive_group(required=True)
    task.add_argument("input", nargs="?", metavar="INPUT", help="an input whose network and k are priced")
    for name, told in (("check", "the short form"), ("check-all", "all rows"), ("write", "rows, tables and plots"),
                       ("draw", "tables and plots")):
        task.add_argument(f"--{name}", action="store_true", help=told)
    reader.add_argument("--k", type=numbers_of, metavar="K,..", help="with INPUT: the trade-offs, else its own and 2, 4 and 8")
    reader.add_argument("--jobs", type=count_of, default=1, metavar="N", help="with --write and --check-all: so many processes")
    return reader.parse_args()


def main():
    asked = words()
    program = Program()
    if asked.input is not None:
        price_input(asked.input, asked.k, program)
        return
    os.environ.setdefault("TRACK_PROVED", "1")
    os.chdir(TOP)
    if asked.check or asked.check_all:
        rows = stored_rows()
        check(rows)
        check_weights(rows, program, None if asked.check else asked.jobs)
        return
    if asked.write:
        store(ROWS, rows_text(weigh_all(program, asked.jobs)))
    for path, text in texts_of(stored_rows()).items():
        store(path, text)


if __name__ == "__main__":
    ends_clearly(main)
