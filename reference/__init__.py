"""Puklanim written a second time, from RULES.md alone.

Every module follows the definitions of RULES.md as plainly as it can; comments name the rules. Nothing here is fast on
purpose. It is meant to be read beside the rules, and to be compared with other programs.
"""
