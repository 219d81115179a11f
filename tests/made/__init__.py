"""What programs are tried with: requests, sequences of calls, scripts, and what each must reach."""
