"""Writes the profile's text of a Minibex file as IBEX takes it."""
from .refusals import Refusal
from .translate import Translation, translate

__all__ = ["Refusal", "Translation", "translate"]
