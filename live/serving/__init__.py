"""The parts of gateway.py."""
