"""The parts of `examples/from-toxiproxy`."""
