"""What the suites share: stations as processes, links between them, frames, files, browsers."""
import sys

sys.dont_write_bytecode = True
