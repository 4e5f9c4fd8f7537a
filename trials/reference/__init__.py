"""Logs of runs by blocks in plain Python: which logs a program's run may have, and which one a seed draws.

To be read in this order: `syntax` (from texts to programs), `meaning` (what each form asks of the memory), `guesses`, `runs` (speculative runs and
verdicts), `schedules`, `logs` (bytes). On `programs`, and on the `damages` of their logs, trials/replay.py tries the program.
"""
