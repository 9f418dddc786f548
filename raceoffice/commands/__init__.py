"""What each command does: its words, and what is asked of the modules below."""
