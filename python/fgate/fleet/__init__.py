"""The fleet: many links repaired by many processes, on one machine or several."""
