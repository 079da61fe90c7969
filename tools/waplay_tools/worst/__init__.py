"""The worst scripts that are known, each of one kind, with what they take."""
