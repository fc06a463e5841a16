"""What the benches share with the checks: the messages of a client (checks/messages.py), and the texts of files (checks/texts.py).

This is the one script of bench/ that finds checks/; the others import from here.
"""
import os
import sys

sys.path.append(os.path.join(os.path.dirname(os.path.dirname(os.path.abspath(__file__))), "checks"))

from messages import (FIRST, LAST, METHODS, asked, bodies_of, changed, diagnosed, frame, is_request, notice, opened,
                      read_body, withdrawn)
from texts import texts_in
