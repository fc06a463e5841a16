#!/usr/bin/env python3
"""Rows for `pq_server stdio`: each starts the program as an editor does, sends messages, and compares what comes.

What is right of diagnostics is what a new session of `pq_server script --loose` of the same program says of the same texts; but
P020 to P022 and P104 are not shown, P150 has the severity 3 beside P104, and P102 names the folders that were looked in. Waits end when what is waited for has come, so a slow machine makes no row
fail. That nothing more comes is taken for shown after 0.4 seconds without a message.

Printed are, for each row, whether it holds, its sentence and its seconds. The status is 1 if a row does not hold.

usage: checks/stdio.py [--program P | --build] [--only NAME ..] [--list] [--seed N] [--steps N] [--workers N] [--jobs N]
"""
import sys

import stdio_disk
import stdio_editors
import stdio_ends
import stdio_files
import stdio_lists
import stdio_loose
import stdio_oddities
import stdio_random
import stdio_roots
import stdio_said
import stdio_view
import stdio_views_random
import stdio_whole
from server_rows import run

MODULES = (stdio_lists, stdio_loose, stdio_files, stdio_roots, stdio_said, stdio_whole, stdio_view, stdio_disk, stdio_editors,
           stdio_ends, stdio_oddities, stdio_random, stdio_views_random)

if __name__ == "__main__":
    sys.exit(run(MODULES))
