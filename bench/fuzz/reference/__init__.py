"""What `tacd replay` and `tacd check` print, and the lines of a log, worked out plainly from docs/.

Everything is searched and counted anew for each question: there are no automata that are kept, no
running counts and no remembered decisions. `script.replay` and `check.check` are the two ways in.
"""
