"""Lengths of files, around the ends of a block and around 1 MiB."""

# A block of a file is as long as this; the others lie around its ends, and around 1 MiB.
BLOCK = 65_536
SIZES = (0, 1, BLOCK - 1, BLOCK, BLOCK + 1, 1 << 20, (1 << 20) + 1, 20_000_000)
