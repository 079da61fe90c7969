"""What tools/report, tools/difftranscript and tools/makeschema are made of."""
