"""Hostile peers of `toxi serve`, and the cases that `tests/hostile` runs."""
