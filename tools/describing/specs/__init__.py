"""The back end of specs: the definitions that the contracts of a format cite."""
