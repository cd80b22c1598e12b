#!/usr/bin/env python3
"""terminal.py COMMAND WORD..: runs a command whose standard error is a terminal, prints to standard error what it writes there, and ends with its status."""
import os
import pty
import subprocess
import sys

ours, theirs = pty.openpty()
command = subprocess.Popen(sys.argv[1:], stderr=theirs)
os.close(theirs)
while True:
    try:
        written = os.read(ours, 4096)
    except OSError:  # nobody has the terminal open any more
        break
    sys.stderr.write(written.decode().replace("\r\n", "\n"))
sys.exit(command.wait())
