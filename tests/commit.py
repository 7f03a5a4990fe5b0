"""Asks git about this checkout."""
import os
import subprocess

TOP = os.path.dirname(os.path.dirname(os.path.abspath(__file__)))


def git(top, *words):
    """Returns what git prints, or None if it fails."""
    ran = subprocess.run(["git", "-C", top, *words], capture_output=True, text=True, errors="replace")
    return ran.stdout if ran.returncode == 0 else None


def seed_of(top=TOP):
    """Returns the hash of the commit, which is the seed of draws."""
    return (git(top, "rev-parse", "HEAD") or "no commit").strip()
