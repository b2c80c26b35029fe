"""Not proved (../README.md). Rewrites that keep what a program prints, and give the analysis the shape that it wants.

Each is a module that says what is asked before, why prints and final values stay, and what it does to steps. `search` tries them.
"""
