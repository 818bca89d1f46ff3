"""How a tool ends that was asked for its usage, or whose words are wrong; for the tools beside it."""
import sys

HELP = (["-h"], ["--help"])


def end(words, text):
    """Prints the usage: with status 0 where that was asked for, and else on standard error with status 2."""
    is_asked = words[:1] in HELP
    print(text, file=sys.stdout if is_asked else sys.stderr)
    sys.exit(0 if is_asked else 2)


def is_option(words):
    """Whether the first word is one of an option's form."""
    return bool(words) and words[0].startswith("-")
