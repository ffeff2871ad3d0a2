"""Finds an interpreter of Python that has a package."""

import shutil
import subprocess
import sys


def python_with(package):
    """The first of this interpreter and that of the system that has the package; None if neither has it."""
    for program in (sys.executable, "/usr/bin/python3"):
        if shutil.which(program) and subprocess.run([program, "-c", f"import {package}"], stderr=subprocess.DEVNULL).returncode == 0:
            return program
    return None
