"""From a checkout to other people's machines: what tools/package makes of the programs that are built."""
