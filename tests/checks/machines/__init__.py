"""Plain machines on which tests run, written from papers and documents alone, and tests for them."""
