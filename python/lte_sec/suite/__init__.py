"""Drive --suite and --generate: rows, visits, what became of each, and its report."""
