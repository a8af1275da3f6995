"""The commands that stand around fgate, for its users."""

#: The version of the program and of this package, which is one.
__version__ = "0.1.0"
