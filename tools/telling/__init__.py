"""How far a long command is, for people."""
