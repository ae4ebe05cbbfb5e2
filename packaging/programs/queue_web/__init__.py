"""The parts of bqd-web."""
