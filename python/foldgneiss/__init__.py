"""Foldgneiss from Python: runs of firmware, requests and verdicts by the proved program, and the
values of its files. docs/python.md is the guide.
"""
from .calls import Failure, Printout, Request, Run, play, request, round, trace, verify
from .device import Device, Standing
from .elf import Elf, ElfFault
from .image import image_text, read_image
from .key import read_key
from .policy import Policy, policy_text, read_policy
from .printed_line import (Collision, Denial, End, Report, Reset, SentByte, Verdict, read_lines,
                      read_reports)
from .script import Event, read_script, script_text
from .trace_line import Access, TraceLine, read_trace
from .words import Fault

__version__ = "0.2.0"
__all__ = [
    "Access", "Collision", "Denial", "Device", "Elf", "ElfFault", "End", "Event", "Failure", "Fault",
    "Policy", "Printout", "Report", "Request", "Reset", "Run", "SentByte", "Standing", "TraceLine", "Verdict",
    "image_text", "play", "policy_text", "read_image", "read_key", "read_policy", "read_lines",
    "read_reports", "read_script", "read_trace", "request", "round", "script_text", "trace",
    "verify"]
