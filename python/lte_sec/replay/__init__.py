"""Replay: a capture as scenarios, and its keys beside the run."""
