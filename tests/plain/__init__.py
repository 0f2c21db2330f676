"""Plain readings of the manual, which the tests compare the program with."""
