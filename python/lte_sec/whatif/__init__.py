"""What-if: variants, outcomes, the answer with its page and picture."""
