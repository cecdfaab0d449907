"""Tools beside the program `maft`: what a run comes to, faults in words, logs of single nodes, and campaigns.

Nothing here is proved. The tools read and write the program's texts, and leave every judgement of a scenario to the
program.
"""

__version__ = "2026.11.30"
