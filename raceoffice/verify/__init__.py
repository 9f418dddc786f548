"""What a page carries, read from it, and whether the page follows from that."""
