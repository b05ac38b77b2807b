"""Runs the interval paver, reads its pavings exactly, and helps to write its systems.

    import paver
    answer = paver.run("examples/ring.mbx", eps=0.25)
    paving = answer.paving()
    print(paving.counts(), paving.volumes(), paving.hull())
    for box in paving.inner(): print(box.exact)

Numbers are exact Fractions; floats are rounded outward and come only where they are asked for.
"""
from .advice import depth_that_suffices, warnings_of
from .box import Box, Cluster
from .canonical import System
from .control import Control, control, control_text
from .control_text import ControlRefused
from .decide import Ball, Decisions, Largest, Tolerance, decide
from .errors import (
    ContractRefused, Disagree, FolderRefused, KeeperFault, NoFile, NotInProgram, ObjectiveRefused, PaverError, PavingError,
    PavingRefused, ProgramFault, ProgramMissing, ReadFault, SystemEdited, SystemRefused, TaskLost, TreeLimit, UsageError,
    WantOfMemory, WriteFault)
from .fit import Fit, fit
from .levels import Levels, least_by_levels
from .path import Path, PathFault, Verdict, path
from .paving import Parts, Paving
from .measurements import FitRefused
from .picture import svg
from .plots import plot, plot_projection
from .program import (
    Answer, audit, audit_centered, campaign, check, check_text, draw, find, merge, resume, run, run_centered, run_text, sample)
from .robot import robot
from .robot_file import RobotRefused
from .project import Projection, project
from .report import report
from .robust import NotRobust, Robust, robust, vertices_text
from .roots import Root, find_roots
from .scale import scaled_text
from .split import Gathered, gather, split
from .sweep import Progress, Sweep, sweep
from .undecided import undecided
from .values import Bounds, least
from .version import VERSION as __version__
from .view import View, view
from .widen import widened, widened_contract, widened_file

__all__ = [
    "Answer", "Ball", "Bounds", "Box", "Cluster", "ContractRefused", "Control", "ControlRefused", "Decisions", "Disagree",
    "Fit", "FitRefused", "FolderRefused", "Gathered", "KeeperFault", "Largest", "Levels", "NoFile", "NotInProgram",
    "NotRobust", "ObjectiveRefused", "Parts", "Path", "PathFault", "PaverError", "Paving", "PavingError", "PavingRefused",
    "ProgramFault", "ProgramMissing", "Progress", "Projection", "ReadFault", "RobotRefused", "Robust", "Root", "Sweep",
    "System", "SystemEdited", "SystemRefused", "TaskLost", "Tolerance", "TreeLimit", "UsageError", "Verdict", "View",
    "WantOfMemory", "WriteFault", "__version__", "audit", "audit_centered", "campaign", "check", "check_text", "control",
    "control_text", "decide", "depth_that_suffices", "draw", "find", "find_roots", "fit", "gather", "least", "least_by_levels",
    "merge", "path", "plot", "plot_projection", "project", "report", "resume", "robot", "robust", "run", "run_centered",
    "run_text", "sample", "scaled_text", "split", "svg", "sweep", "undecided", "vertices_text", "view", "warnings_of",
    "widened", "widened_contract", "widened_file",
]
