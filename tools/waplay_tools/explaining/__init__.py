"""Explains a sample: the facts that it hangs on, each of which can be checked by itself."""
