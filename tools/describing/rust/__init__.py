"""The back end of code: the struct of a format, its error, and its functions with their contracts."""
