"""The session of one class: what is typed for it, what is sent, and what is said and asked, as values."""
