"""The results of a series, as values, as files and for phones."""
