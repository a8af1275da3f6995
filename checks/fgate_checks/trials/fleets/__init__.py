"""Nights of recordings that a fleet repairs."""
