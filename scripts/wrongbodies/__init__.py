"""Tries wrong bodies in rounds: `functions` is the text of functions, `tries` is one check, `order` is what is tried when."""
