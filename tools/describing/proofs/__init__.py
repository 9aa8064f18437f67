"""The back end of proofs: the lemmas of a format, the answers of its functions, and its test vectors."""
