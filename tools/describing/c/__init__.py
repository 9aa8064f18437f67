"""The back end for C, Rust and Python: it prints a static library over a printed format, and what calls it."""
