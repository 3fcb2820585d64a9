"""A whole cluster in Python, line by line, by docs/rules alone: no code of the crates is used.

`world.World` runs the lines of a script and gives their reports, and notes in `cells` which case of each table a line
has reached. `schedules` makes random scripts with it, whose lines are due.
"""
