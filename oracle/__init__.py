"""A model of the library, written from docs/ alone, to compare the programs with."""
