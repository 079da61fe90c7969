"""What tools/archive is made of: takes that are kept as bags, and replayed to prove themselves."""
