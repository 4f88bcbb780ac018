"""What the tools share: the repository's root, a parser of arguments, and cutting what is too long to print."""
import argparse
from pathlib import Path

ROOT = Path(__file__).resolve().parent.parent


def parser(about):
    """A parser of arguments, with the tool's own text as its help."""
    return argparse.ArgumentParser(description=about, formatter_class=argparse.RawDescriptionHelpFormatter)


def cut(text, most):
    return text if len(text) <= most else text[:most] + f' .. ({len(text) - most} characters more)'
