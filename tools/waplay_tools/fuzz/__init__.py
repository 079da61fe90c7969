"""Scripts, WAV files, words and streams with something wrong in them, on the built program."""
