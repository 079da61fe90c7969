"""Each limit of a script, a file and a command line, met at its number and one past it."""
