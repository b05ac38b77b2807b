"""The words of `control`, and what it prints."""
from __future__ import annotations

import argparse
import sys

from .control import control
from .control_text import ControlRefused


def add_options(command: argparse.ArgumentParser) -> None:
    command.add_argument("file", help="a control question: docs/CONTROL.md")
    command.add_argument("--parameters-alone", action="store_true", help="no theorem of Kharitonov's or on edges")


def work(arguments: argparse.Namespace) -> int:
    """Prints the system of a control question: a plant, a controller, and what is asked of the closed loop."""
    try:
        found = control(arguments.file, theorems=not arguments.parameters_alone)
    except ControlRefused as fault:
        print(f"control {arguments.file}: {fault}", file=sys.stderr)
        return 3
    sys.stdout.write(found.text)
    return 0
