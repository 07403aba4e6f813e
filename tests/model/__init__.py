"""A second card, in Python, written from the documentation alone (README.md and docs/).

Where the pages did not suffice it was corrected by what the program answers, and the pages were mended. So it is two things: a
second implementation that the proved program is compared with, and the evidence of what the pages decide.
"""
