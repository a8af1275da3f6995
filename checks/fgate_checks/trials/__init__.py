"""Trials of the built program and of what stands around it."""
