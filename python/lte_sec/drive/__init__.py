"""Drive with actors of one's own: frames, records, and why a reply differs; calc --strict."""
