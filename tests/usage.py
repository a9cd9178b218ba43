"""The arguments of a script: `-h` and `--help` print what it is for; an option that it has not is an error."""

import sys


def arguments(script, *options):
    """The arguments given to a script, whose docstring is `script` and whose options are these."""
    given = sys.argv[1:]
    if given[:1] in (["-h"], ["--help"]):
        print(script.strip())
        sys.exit(0)
    for word in given:
        if word.startswith("-") and word not in options:
            print(f"{sys.argv[0]}: there is no option {word}; --help says what there is", file=sys.stderr)
            sys.exit(2)
    return given
