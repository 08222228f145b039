#!/usr/bin/env python3
"""What a reader must believe: the definitions that the clause `told` of `command_with_threads`
reaches, counted for each word of the command line, as `WORD LINES`. Where the clause `sound`
stands beside it, the line `soundness LINES` counts what that one reaches.

Lines of definitions of crates/*/specs count with their comments, without imports and blank lines;
so do those of the Rust types, constants and members of traits that definitions and the clause name,
without attributes. Of a definition by cases of the command only the case of the word counts. What
the kit defines, as lists and numbers, doesn't count.

    reading.py          prints these lines, and ends with status 1 where one is more than is kept
    reading.py --keep   keeps them in checks/reading.txt
    reading.py WORD     lists what the word reaches: LINES FILE NAME, and the sum; so do `told` and
                        `soundness` what these clauses reach, whatever the word
    reading.py NAME     the same of the definitions of this name, or of the one that CRATE.FILE.NAME is

Run it at the top of the repository.
"""
import collections
import dataclasses
import functools
import pathlib
import re
import sys

TOP = pathlib.Path("crates/track/src/top.rt")
CALL = "command_with_threads"
KEPT = pathlib.Path("checks/reading.txt")
COMMAND = ("word_line", "command", "Command")

TOKEN = re.compile(r"[^\s(){}\[\],;.]+")
USE = re.compile(r"^\s*(?:pub |ghost )*use Rattle\.([a-z_]\w*)\.specs\.([\w.]+?)(?:\.\{([^}]*)\}| as (\w+))?;?$", re.M)
HEAD = re.compile(r"^((?:abbrev |unfoldable |pub )*)(record |data )?([^\s(){}\[\],;:]+)(.*)$")
AHEAD = ("--", "infix", "unfolding ")
# What names nothing: a label of a record's value or field, a binder, and a field behind a dot.
LABEL = re.compile(r"(?:(?<=[{;])|^(?=\s))\s*(?:pub )?[^\s(){}\[\],;]+ (?:=|:)(?= |$)", re.M)
BINDER = re.compile(r"(?<=[({])[^\s(){}\[\],;:]+(?: [^\s(){}\[\],;:]+)* :(?= )")
FIELD = re.compile(r"(?<=[\w)\]}])\.[\w◌-]+")
RUST_NAME = re.compile(r"\b[A-Z]\w+\b")
RUST_USE = re.compile(r"^use ([a-z]\w*)(?:::[a-z]\w*)*::(?:\{([^}]*)\}|(\w+));", re.M)


@dataclasses.dataclass(frozen=True)
class Definition:
    """Its place, its name, its lines, and of these the first ones of its cases."""
    path: pathlib.Path
    name: str
    lines: tuple
    cases: tuple = ()


def is_declaration(line):
    """The name that a line at the margin declares, if it does."""
    head = HEAD.match(line)
    if not head or line.startswith(("use ", "pub use ", "mod ", "pub mod ")):
        return None
    if head[1] or head[2]:
        return head[3]
    depth = 0
    for token in re.findall(r"[({})]|[^\s(){}]+", head[4]):
        depth += (token in "({") - (token in ")}")
        if depth == 0 and token in (":", "="):
            return head[3] if token == ":" else None
    return None


def without_imports(text):
    """The lines of a file, blank ones in place of its imports."""
    blank = lambda found: "\n" * found[0].count("\n")
    return re.sub(r"^(?:pub )?use [^\n{]*(?:\{[^}]*\})?[^\n]*$", blank, text, flags=re.M).splitlines()


@functools.cache
def definitions(path):
    """Those of a file of specs, by each name that they give: their own, and those of cases of data."""
    found, ahead, lines, cases, name = {}, [], [], [], None

    def close():
        if name:
            one = Definition(path, name, tuple(lines), tuple(cases))
            found[name] = one
            if any(line.startswith("pub data ") for line in lines):
                for line in lines:
                    case = re.match(r"  ([^\s:]+) :", line)
                    found.update({case[1]: one} if case else {})

    for line in without_imports(path.read_text()):
        if not line.strip():
            ahead = []
        elif line.startswith(AHEAD):
            ahead.append(line)
        elif line.startswith(" "):
            lines += ahead + [line]
            ahead = []
        else:
            declared = is_declaration(line)
            if declared or line.startswith(("mod ", "pub mod ")):
                close()
                lines, cases, name = [], [], declared
            else:
                cases.append(len(lines) + len(ahead))
            lines += ahead + [line]
            ahead = []
    close()
    return found


def pieces(name):
    """How a name stands in a text: an operator by its parts, and that of `do` by this word."""
    if "◌" not in name:
        return [name]
    return [part for part in name.split("◌") if part] + (["do"] if ">>=" in name else [])


@functools.cache
def scope(path):
    """What each word of a file means: (crate, module, name), or a name of the file itself."""
    text, known = path.read_text(), {}
    for crate, module, listed, alias in USE.findall(text):
        if not pathlib.Path("crates", crate).is_dir():
            continue
        if alias:
            known[alias] = (crate, module, "")
        for one in filter(None, (one.strip() for one in listed.split(","))):
            name, _, other = one.partition(" as ")
            for piece in pieces(other or name):
                known[piece] = (crate, module, name)
    if path.suffix == ".antt":
        module = path.stem
        for name in definitions(path):
            for piece in pieces(name):
                known.setdefault(piece, (path.parts[1], module, name))
    return known


def plain(lines):
    """The text of lines, without comments and what names nothing."""
    text = "\n".join(re.sub(r"(^|\s)(--|//).*", "", line) for line in lines)
    for pattern in (LABEL, BINDER):
        text = pattern.sub(" ", text)
    return FIELD.sub("", text)


def rust_lines(text, start):
    """The lines of an item that begins at this place, with its documentation."""
    before = text[:start].splitlines()
    count = len(before)
    while count and before[count - 1].strip().startswith(("//", "#[")):
        count -= 1
    lines, depth = [], 0
    for line in text[start:].splitlines():
        lines.append(line)
        depth += sum(line.count(mark) for mark in "({") - sum(line.count(mark) for mark in ")}")
        if depth == 0 and line.endswith((";", "}")):
            break
    every = before[count:] + lines
    return tuple(line for line in every if line.strip() and not line.strip().startswith("#["))


@functools.cache
def rust_item(crate, name, kinds="struct|enum|union|trait|const"):
    """An item of a crate's code."""
    item = re.compile(rf"^(?:pub(?:\([a-z]+\))? )?(?:{kinds}) {name}\b", re.M)
    for path in sorted(pathlib.Path("crates", crate, "src").rglob("*.rt")):
        text = path.read_text()
        found = item.search(text)
        if found:
            return Definition(path, name, rust_lines(text, found.start()))
    return None


def rust_below(one):
    """The items that one of Rust names, of our crates."""
    crates = {}
    for crate, listed, alone in RUST_USE.findall(one.path.read_text()):
        for name in (listed or alone).split(","):
            crates[name.strip()] = crate
    for name in set(RUST_NAME.findall(plain(one.lines))) - {one.name}:
        crate = crates.get(name, "crate")
        crate = one.path.parts[1] if crate == "crate" else crate
        if pathlib.Path("crates", crate).is_dir():
            item = rust_item(crate, name, "struct|enum|union")
            if item:
                yield item


def meant(crate, module, name):
    """The definition of this name."""
    if module.startswith("declared"):
        parts = module.split(".")
        of_type = parts[-1] in ("TheVariants", "TheConstants") or parts[-1] == name
        wanted = name if parts[-1] == "TheConstants" or not of_type else parts[-1]
        wanted = parts[-2] if parts[-1] == "TheVariants" else wanted
        return rust_item(crate, wanted)
    path = pathlib.Path("crates", crate, "specs", module.split(".")[0] + ".antt")
    known = definitions(path)
    if name not in known and "." in module:
        name = module.split(".")[1]
    return known.get(name)


def variant_at(case, known):
    """The variant of the command that a case is of, if it is one's."""
    for token in TOKEN.findall(case.split(" = ")[0])[1:]:
        crate, module, name = known.get(token, ("", "", ""))
        if (crate, *module.split(".")[1:]) == (*COMMAND, "TheVariants"):
            return name
    return None


def of_command(one, variant):
    """The lines of a definition that speak of a variant: of cases by the command, its own."""
    known = scope(one.path)
    at = {start: variant_at(one.lines[start], known) for start in one.cases}
    told = set(at.values()) - {None}
    if variant is None or not told:
        return one.lines
    wanted = {variant} if variant in told else {None}
    lines, keeps = [], True
    for place, line in enumerate(one.lines):
        if place in at:
            keeps = at[place] in wanted
        if keeps:
            lines.append(line)
    return tuple(lines)


def below(one, variant):
    """The definitions that one names, for this variant."""
    if one.path.suffix == ".rt":
        yield from rust_below(one)
        return
    known = scope(one.path)
    for token in set(TOKEN.findall(plain(of_command(one, variant)))):
        if token in known:
            found = meant(*known[token])
            if found is None:
                sys.exit(f"{one.path}: nothing is known of {'.'.join(known[token])}")
            yield found


def reached(starts, variant=None):
    """All that is reached, with the count of its lines."""
    seen, waiting = set(starts), list(starts)
    while waiting:
        for found in below(waiting.pop(), variant):
            if found not in seen:
                seen.add(found)
                waiting.append(found)
    counts = {one: len(of_command(one, variant)) for one in seen}
    return sorted(counts.items(), key=lambda it: (it[0].path, it[0].name))


def clause(name):
    """What a clause of the top call names, with the members of traits; empty where none stands."""
    text = TOP.read_text()
    head = text[text.index(f"pub fn {CALL}<"):]
    bounds = dict(re.findall(r"\b([A-Z]): (\w+)", head[:head.index("(")]))
    found = re.search(rf"ensures {name} \{{(.*?)\}}\n(?:    ensures|\{{)", head[:head.index("\n{\n")] + "\n{", re.S)
    if not found:
        return []
    known = scope(TOP)
    starts = [meant(*known[token]) for token in set(TOKEN.findall(FIELD.sub("", found[1]))) if token in known]
    traits = dict((name.strip(), crate) for crate, listed, alone in RUST_USE.findall(text)
                  for name in (listed or alone).split(","))
    for letter, member in set(re.findall(r"\b([A-Z])\.(\w+)", found[1])):
        trait = rust_item(traits[bounds[letter]], bounds[letter], "trait")
        whole = trait.path.read_text()
        start = re.search(rf"^ *ghost {member}:", whole[whole.index(f"trait {trait.name} "):], re.M)
        place = whole.index(f"trait {trait.name} ") + start.start()
        starts.append(Definition(trait.path, member, rust_lines(whole, place)))
    return starts


def words():
    """The words of the command line, each with its variant."""
    path = pathlib.Path("crates", COMMAND[0], "src", COMMAND[1] + ".rt")
    listed = re.search(r"pub enum Command \{(.*?)\n\}", path.read_text(), re.S)[1]
    return {name.lower(): name for name in re.findall(r"^    ([A-Z]\w*)", listed, re.M)}


def counts():
    """The lines that each word reaches, and those of the clause of soundness."""
    told = clause("told")
    lines = {word: sum(count for _, count in reached(told, variant)) for word, variant in words().items()}
    sound = clause("sound") or named("IsSoundText")
    if sound:
        lines["soundness"] = sum(count for _, count in reached(sound))
    return lines


def named(name):
    """The definitions of this name, as CRATE.FILE.NAME or alone."""
    *place, last = name.split(".")
    crate, file = place or ("*", "*")
    found = [definitions(path).get(last) for path in pathlib.Path("crates").glob(f"{crate}/specs/{file}.antt")]
    return [one for one in found if one and one.name == last]


def listing(name):
    """What a word or a definition reaches."""
    variant = words().get(name)
    clauses = {"told": "told", "soundness": "sound"}
    starts = clause("told" if variant else clauses.get(name, "")) or named(name)
    if not starts:
        sys.exit(f"{name} is no word, and no definition")
    found = reached(starts, variant)
    for one, count in found:
        print(f"{count:5} {one.path} {one.name}")
    files = len({one.path for one, _ in found})
    print(f"{sum(count for _, count in found):5} lines of {len(found)} definitions in {files} files")


def main():
    arguments = sys.argv[1:]
    if arguments and arguments[0] != "--keep":
        return listing(arguments[0])
    lines = counts()
    if arguments:
        KEPT.write_text("".join(f"{word} {count}\n" for word, count in lines.items()))
    kept = dict(line.split() for line in KEPT.read_text().splitlines())
    faults = 0
    for word, count in lines.items():
        print(word, count)
        if count > int(kept.get(word, 0)):
            faults += 1
            print(f"{word}: {count} lines must be believed, and {kept.get(word, 'none')} are kept", file=sys.stderr)
    return 1 if faults else 0


if __name__ == "__main__":
    sys.exit(main())
