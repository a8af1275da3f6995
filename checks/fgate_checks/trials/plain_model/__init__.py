"""What every command of fgate answers, computed plainly from the definitions that
docs/FORMATS.md and docs/MODEL.md tell: words, datagrams, desks, plays, traces,
encodings, captures and continuity.

Nothing is read off the program's code, and a list is gone through again where that
reads like the definition. `commands.answer` gives status, fault line, standard output
and lanes for the words of a command line and the bytes of the input; the trials compare
the program with it.
"""
