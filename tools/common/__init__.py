"""What the tools share: a module for each kind of file, for traces, for symbols and for runs of the program."""
