"""The typed model of a description, its parser, and the programs that need no code printed: `--show` and `--pack`."""
