"""Corrected times, which the program `times` computes."""
