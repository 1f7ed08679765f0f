"""Cases by topic: each file has a list CASES."""
