"""What the tools share: each text and each rule is read in one place. Python 3.8, standard library."""
