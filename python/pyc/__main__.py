"""The command: `python -m pyc WORDS`, or this file itself, by its path."""
import sys

if sys.version_info < (3, 8):
    sys.stderr.write("pyc: Python 3.8 or later is wanted, and this is %d.%d\n" % sys.version_info[:2])
    sys.exit(127)

if not __package__:
    # This file is run by its path: its folder is no place for modules, the one above is.
    import os

    HERE = os.path.dirname(os.path.realpath(__file__))
    sys.path[:] = [os.path.dirname(HERE)] + [it for it in sys.path if os.path.realpath(it or ".") != HERE]

from pyc import cli, options


def main() -> int:
    """The status of the call that this process is. pyc.sh says in the first word how it was called."""
    words = sys.argv[1:]
    if words[:1] == ["--called"]:
        options.CALLED = words[1]
        del words[:2]
    return cli.main(words)


if __name__ == "__main__":
    sys.exit(main())
