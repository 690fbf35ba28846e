"""The solver, as Python asks it: the library, by its calls in this process or in a child process, or a program; and what is made of its answers.

The child processes also answer from the rules themselves, as gates in Python: so these stand here too. Nothing of the packages beside this one
is needed here but what commands have in common at a terminal.
"""
