"""Scripts without the calls that are not heard."""
