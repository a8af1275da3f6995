"""Tests of the commands that stand around fgate."""
