"""The tools of payd: a module for each, and what they share."""
