"""sysr-shell: a line editor over a session."""
