"""The back end that prints a program over a printed format: records as JSON Lines, and back."""
