"""What the repository asks of itself, apart from proofs: one module for each idea, and `checks` for the list of them.

tools/house-check runs the checks; tools/map, tools/conditions, tools/definitions, tools/cited-lemmas, tools/crates-check and
tools/edit-check print what some of them look at.
"""
import signal

# A reader that has seen enough, such as head, ends a program without a word.
signal.signal(signal.SIGPIPE, signal.SIG_DFL)
