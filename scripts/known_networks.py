"""The networks of examples/networks/: where their nodes are, which are joined, and how far. What is known and what is made up
stands in the heads of the inputs."""
import math

EARTH_KM = 6371.0


def kilometres(one, other):
    """The great-circle distance of two places of latitude and longitude, in whole kilometres."""
    (a, b), (c, d) = ([math.radians(x) for x in place] for place in (one, other))
    half = math.sin((c - a) / 2) ** 2 + math.cos(a) * math.cos(c) * math.sin((d - b) / 2) ** 2
    return round(2 * EARTH_KM * math.asin(math.sqrt(half)))


NSFNET_SITES = [
    ("Seattle", 47.61, -122.33), ("Palo Alto", 37.44, -122.14), ("San Diego", 32.72, -117.16),
    ("Salt Lake City", 40.76, -111.89), ("Boulder", 40.01, -105.27), ("Houston", 29.76, -95.37),
    ("Lincoln", 40.81, -96.68), ("Champaign", 40.12, -88.24), ("Pittsburgh", 40.44, -79.99),
    ("Atlanta", 33.75, -84.39), ("Ann Arbor", 42.28, -83.74), ("Ithaca", 42.44, -76.50),
    ("Princeton", 40.36, -74.66), ("College Park", 38.99, -76.94),
]
NSFNET_LINKS = [
    (0, 1), (0, 2), (0, 7), (1, 2), (1, 3), (2, 5), (3, 4), (3, 10), (4, 5), (4, 6), (5, 9), (5, 13), (6, 7), (7, 8),
    (8, 9), (8, 11), (8, 12), (10, 11), (10, 12), (11, 13), (12, 13),
]

GEANT_SITES = [
    ("Vienna", 48.21, 16.37), ("Brussels", 50.85, 4.35), ("Geneva", 46.20, 6.15), ("Prague", 50.08, 14.44),
    ("Frankfurt", 50.11, 8.68), ("Madrid", 40.42, -3.70), ("Paris", 48.86, 2.35), ("Athens", 37.98, 23.73),
    ("Zagreb", 45.81, 15.98), ("Budapest", 47.50, 19.04), ("Dublin", 53.35, -6.26), ("Tel Aviv", 32.07, 34.78),
    ("Milan", 45.46, 9.19), ("Luxembourg", 49.61, 6.13), ("Amsterdam", 52.37, 4.90), ("Poznan", 52.41, 16.93),
    ("Lisbon", 38.72, -9.14), ("Stockholm", 59.33, 18.07), ("Ljubljana", 46.05, 14.51), ("Bratislava", 48.15, 17.11),
    ("London", 51.51, -0.13),
]
GEANT_LINKS = [
    ("Vienna", "Geneva"), ("Vienna", "Frankfurt"), ("Vienna", "Budapest"), ("Vienna", "Ljubljana"), ("Brussels", "Paris"),
    ("Brussels", "Amsterdam"), ("Geneva", "Paris"), ("Geneva", "Milan"), ("Prague", "Frankfurt"), ("Prague", "Poznan"),
    ("Prague", "Bratislava"), ("Frankfurt", "Paris"), ("Frankfurt", "Athens"), ("Frankfurt", "Milan"),
    ("Frankfurt", "Amsterdam"), ("Frankfurt", "Stockholm"), ("Madrid", "Paris"), ("Madrid", "Milan"), ("Madrid", "Lisbon"),
    ("Paris", "Luxembourg"), ("Paris", "London"), ("Athens", "Milan"), ("Zagreb", "Budapest"), ("Zagreb", "Ljubljana"),
    ("Budapest", "Bratislava"), ("Dublin", "London"), ("Tel Aviv", "Milan"), ("Tel Aviv", "Amsterdam"),
    ("Amsterdam", "London"), ("Poznan", "Stockholm"), ("Lisbon", "London"), ("Stockholm", "London"),
]


def joined(sites, links):
    """The edges of links by number, weighed in kilometres."""
    return [(a, b, kilometres(sites[a][1:], sites[b][1:])) for a, b in links]


def nsfnet():
    return len(NSFNET_SITES), joined(NSFNET_SITES, NSFNET_LINKS)


def geant():
    numbers = {name: v for v, (name, _, _) in enumerate(GEANT_SITES)}
    return len(GEANT_SITES), joined(GEANT_SITES, [(numbers[a], numbers[b]) for a, b in GEANT_LINKS])


STREETS = 16
BLOCK_EAST, BLOCK_SOUTH = 200, 80


def grid():
    """Crossings of 16 streets and 16 avenues, row by row; blocks of 200 and 80 metres."""
    edges = []
    for v in range(STREETS * STREETS):
        if v % STREETS + 1 < STREETS:
            edges.append((v, v + 1, BLOCK_EAST))
        if v + STREETS < STREETS * STREETS:
            edges.append((v, v + STREETS, BLOCK_SOUTH))
    return STREETS * STREETS, edges


STOPS = 32


def ring():
    """A circle line of 32 stops, two minutes apart."""
    return STOPS, [(v, (v + 1) % STOPS, 2) for v in range(STOPS)]


def places_of(name):
    """Where the nodes are drawn, X to the right and Y downwards, and their names, if they have any."""
    if name == "grid":
        return [(BLOCK_EAST * (v % STREETS), BLOCK_SOUTH * (v // STREETS)) for v in range(STREETS**2)], None
    if name == "ring":
        turn = 2 * math.pi / STOPS
        return [(round(100 * math.sin(turn * v), 1), round(-100 * math.cos(turn * v), 1)) for v in range(STOPS)], None
    sites = NSFNET_SITES if name == "nsfnet" else GEANT_SITES
    middle = math.cos(math.radians(sum(site[1] for site in sites) / len(sites)))
    return [(round(site[2] * middle, 2), round(-site[1], 2)) for site in sites], [site[0] for site in sites]


NETWORKS = {"nsfnet": nsfnet, "geant": geant, "grid": grid, "ring": ring}
