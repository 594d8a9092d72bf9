"""What captures have: files, packets, messages with their fields, cells, stations, and the links that a trace
covers."""
