"""The command `mundeziwa`: which names two lists share, said at a terminal, to a program, and by an exit status."""
