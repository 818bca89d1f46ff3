"""Names that stand at two places, and files named by a participle; for tools/definitions.

A file, or a folder of modules, is named by what it holds, a noun, or by what its function does, a verb: `entry` or `take`, and
not `taken` or `taking`.
"""
import re

# A type inside a trait or its implementation is told by its indent.
TYPE = re.compile(r"(?:\s*(?:pub(?:\([^)]*\))? )?(?:ghost )?(?:struct|enum|trait|union)|(?:pub(?:\([^)]*\))? )?type) (?P<name>\w+)")
WORD = re.compile(r"[A-Z]?[a-z0-9]+|[A-Z]+")
IRREGULAR = set("begun bound broken brought built chosen done drawn driven fallen fed felt found given gone got grown heard held "
                "hidden kept known laid led lent lost made meant met paid retold risen said seen sent shown sold spent spoken "
                "spun stood sworn taken taught thrown told torn understood woken won worn written".split())
# Those that end so and are nouns, or verbs.
NO_PARTICIPLES = set("ending feed heading meaning meeting need pairing recording seed speed spelling string thing timing".split())
# What stands before a participle in a name that is a sentence, as that of a law.
VERBS = {"is", "are", "was", "were", "be", "been", "has", "have", "had"}
# What names of proofs end with besides.
ENDS = {"lemmas", "laws"}


def twice(found):
    """A line for each name that stands twice, from each name, its whole text and its place."""
    places = {}
    for name, text, place in found:
        places.setdefault(name, []).append((text, place))
    return sorted("%s: the name %s stands also at %s" % (found[0][1], found[0][0], ", ".join(place for _, place in found[1:]))
                  for found in places.values() if len(found) > 1)


def types(crates):
    """The types, traits and aliases: crate, name and place of each."""
    for path in sorted(crates.glob("*/src/**/*.rt")):
        for number, line in enumerate(path.read_text().splitlines(), 1):
            found = TYPE.match(line)
            if found:
                yield path.relative_to(crates).parts[0], found["name"], "%s:%d" % (path.relative_to(crates.parent), number)


def types_twice(crates):
    """A line for each name of a type that stands in two crates."""
    first = {}
    for crate, name, place in types(crates):
        first.setdefault(name, {}).setdefault(crate, place)
    return twice((name, name, place) for name, places in first.items() for place in places.values())


def is_participle(stem):
    """Whether a stem names by a participle: its last word is one, and the one before it is no verb that makes a sentence."""
    words = [word.lower() for word in WORD.findall(stem)]
    while words[1:] and words[-1] in ENDS:
        words.pop()
    last, before = words[-1] if words else "", words[-2:-1]
    is_one = last in IRREGULAR or last.endswith(("ing", "ed")) and last not in NO_PARTICIPLES
    return is_one and not VERBS & set(before)


def participles(crates):
    """A line for each file or folder named by a participle. The folders of proofs are named after modules and functions."""
    paths = [path for crate in sorted(crates.iterdir()) for pattern in ("src/**/*", "specs/**/*", "proofs/*.antt")
             for path in sorted(crate.glob(pattern))]
    # A module that has a file and a folder is told once.
    return ["%s: the file's name is a participle" % path.relative_to(crates.parent) for path in paths
            if (path.is_dir() and not path.with_suffix(".rt").exists() or path.suffix in (".rt", ".antt")) and is_participle(path.stem)]
