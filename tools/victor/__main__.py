from ._lab import script

script()
