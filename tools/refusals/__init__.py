"""Refuses each allocation of a script alone, and compares what is answered with what the definition of the events allows."""
