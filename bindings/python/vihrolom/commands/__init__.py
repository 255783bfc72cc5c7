"""The commands of the package, which `python3 -m vihrolom` runs."""
