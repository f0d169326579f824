"""The modules that the commands and their tests share."""
import sys

sys.dont_write_bytecode = True  # of a command that is loaded as a module it would stand beside the commands
