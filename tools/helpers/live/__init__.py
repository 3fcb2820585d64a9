"""A running cluster in Python, by docs/rules alone: its input, a model of its nodes, and the checks of its journal."""
