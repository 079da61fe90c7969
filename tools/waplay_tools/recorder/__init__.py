"""The recorder's side in Python: opens a page in a browser, and keeps what it called as scripts."""
