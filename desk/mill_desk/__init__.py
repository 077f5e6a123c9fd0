"""The planner's desk: from a spreadsheet to a plan, a picture and a proof that a person can read.

The desk stands beside the program `mill_slab` and calls it. It proves nothing, and it never says
more than the program said.
"""
