"""System calls that fail for a program, by a small library (faults.c) that is loaded before libc."""
from preloaded import environment


def faults(**chosen):
    """Returns the environment of a program in which these calls fail, as accepts=24, times=3."""
    return environment("faults", **{f"FAULT_{name.upper()}": str(value) for name, value in chosen.items()})
