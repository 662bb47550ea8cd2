"""What the tools share: captures, frames, schedules, reports, and the course of a replay."""
import sys

if sys.version_info < (3, 11):
    sys.exit("the tools need Python 3.11 or later")
