#!/usr/bin/env python3
"""Busy processes, beside which programs are tried."""

import contextlib
import os
import subprocess
import sys


@contextlib.contextmanager
def load():
    """As many busy processes as there are processors, until the end of the block."""
    busy = [subprocess.Popen([sys.executable, "-c", "while True: pass"]) for _ in range(os.cpu_count())]
    try:
        yield
    finally:
        for process in busy:
            process.kill()
            process.wait()
