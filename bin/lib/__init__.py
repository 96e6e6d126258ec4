"""What the Python tools of bin/ have in common: records and rows, exact tests, and what is wrong with a map."""
