"""One command from a page to what came of it."""
