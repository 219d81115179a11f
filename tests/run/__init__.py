"""The plumbing: requests and answers as bytes, built programs run, a difference told in words."""
