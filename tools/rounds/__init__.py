"""Edits that must fail, tried many at once: tests/edits.py is the command."""
