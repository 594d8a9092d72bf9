"""What all packages stand on: keys as terms, causes and lines, the catalogue of mistakes, options, how a word ends, and
the proved calls."""
