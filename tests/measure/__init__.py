"""What the measuring programs share: crates proved, built and lent to C, and tables of nodes."""
