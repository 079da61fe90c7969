"""Tools for waplay: what runs beside the program, in Python."""
