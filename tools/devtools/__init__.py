"""The commands of tools/dev, a file each. What they share stands in `workspace` and `sources`."""
