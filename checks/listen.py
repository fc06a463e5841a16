#!/usr/bin/env python3
"""Rows for `pq_server listen`: each starts a server on a port, connects to it, and compares what comes, with the lines of standard error.

Waits end when what is waited for has come. The server's own times are one second, between two lines of connections that are turned
away, and two, for which a session lingers. A row that needs to be faster than these tries again on a new server where it was not, and
fails if it never is; all other limits are wide. So a slow machine makes no row fail that it can run at all.

Printed are, for each row, whether it holds, its sentence and its seconds. The status is 1 if a row does not hold.

usage: checks/listen.py [--program P | --build] [--only NAME ..] [--list] [--workers N] [--jobs N]
"""
import sys

import listen_ends
import listen_sessions
from server_rows import run

MODULES = (listen_sessions, listen_ends)

if __name__ == "__main__":
    sys.exit(run(MODULES))
