"""Tests of the built programs: tools/tests runs them, and so do `python3 -m unittest` and pytest, from the top of the repository."""
