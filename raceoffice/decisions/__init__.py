"""Decisions for which the program has no line: their lines, and the points that they come to."""
