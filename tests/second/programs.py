"""Where the proved programs lie, and the words that run them. Programs are compiled for x86-64."""
import os

ROOT = os.path.abspath(os.path.join(os.path.dirname(__file__), '..', '..'))


def path(program):
    """Where rt leaves a program of the repository that it ran (tests/built.sh)."""
    return os.path.join(ROOT, 'crates', program, 'out', program)


def command(program):
    """The words that run a program of the repository on this machine."""
    return [path(program)]
