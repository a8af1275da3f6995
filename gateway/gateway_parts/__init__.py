"""The parts of gateway/gateway, each with one job. None is run on its own but `flow.py` and `lanes.py`, which it starts."""
