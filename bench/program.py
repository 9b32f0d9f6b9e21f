"""Which program is measured."""

import subprocess


def program_of(root):
    """The program that ./dispatch starts."""
    return subprocess.run([f"{root}/dispatch", "--program"], stdout=subprocess.PIPE, check=True, text=True).stdout.strip()
