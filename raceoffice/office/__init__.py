"""The office of a series: the program that serves, its window, and the copies of its journal."""
