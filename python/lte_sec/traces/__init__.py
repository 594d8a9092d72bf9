"""The words on traces: check-trace, explain, wireshark, repeats; what they print and write."""
