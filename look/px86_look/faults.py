"""How a question ends that has no answer."""

from __future__ import annotations


class Refused(Exception):
    """What was asked is not understood: a fault of the one who asked."""


class Gone(Exception):
    """px86 could not be called, was stopped, took too long, or ended in a way that it never should."""
