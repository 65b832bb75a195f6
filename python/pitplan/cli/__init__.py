"""The command line `pitplan`. Reading it takes Python alone: each subcommand imports what it needs."""

from .entry import main

__all__ = ["main"]
