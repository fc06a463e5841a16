#!/usr/bin/env python3
"""Runs the rows of checks/stdio.py and of checks/listen.py over one program, which it builds without a proof.

Printed are, for each row, whether it holds, its sentence and its seconds. The status is 1 if a row does not hold.

usage: checks/servers.py [--program P] [--only NAME ..] [--list] [--seed N] [--steps N] [--workers N] [--jobs N]
"""
import sys

import listen
import stdio
from server_rows import run

if __name__ == "__main__":
    sys.exit(run(stdio.MODULES + listen.MODULES, builds=True))
