"""Scripts that a program migrates to version 2, and times that it reads in seconds."""
