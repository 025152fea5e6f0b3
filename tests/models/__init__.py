"""Slow models that the tests hold the program against. Those that tools use too are in payd_tools."""
