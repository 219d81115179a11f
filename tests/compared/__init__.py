"""What `tests/compare` compares with the second program: a module for each of its words."""
