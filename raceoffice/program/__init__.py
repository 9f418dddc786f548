"""The program `regatta`: where it is, what is asked of it, and its journal and table as values."""
