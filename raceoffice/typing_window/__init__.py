"""The window of those who type."""
