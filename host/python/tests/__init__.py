"""The tests of tapermoss.py, which tools/python runs: a module for each kind of calls, and others for the module as a whole,
for what is empty, for an install by pip, and for the examples on the pages of docs.
"""
