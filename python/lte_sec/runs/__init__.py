"""Scenarios, reports of run and test vectors: their values, items and variants, verdict, audit, documents."""
