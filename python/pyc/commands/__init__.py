"""The commands, one module each: `COMMAND` says its words (options.py), and `main(words)` does what they say.

`main` parses its words by `options.parse(COMMAND, words)` and gives the status. It may raise `errors.WrongWords`; the
caller tells it in two lines, and --help. What it imports beside `options` and `errors` it imports where it wants it.
A new command is named in `cli.COMMANDS`.
"""
