"""The parts of tools/try-consumer, which gives a consumer deliveries with faults, kills it, and compares its results.
"""

USAGE = 2


class Stop(Exception):
    """Why no trial is possible."""
