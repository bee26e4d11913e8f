"""The rewritings: each module has one kind of change, with its rule in its docstring."""
