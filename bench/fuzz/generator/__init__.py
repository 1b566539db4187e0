"""Scripts and policies by what they do, drawn from a seed.

The generator plays each script with the reference while it draws it, so that it knows which
connections are open and what the policy is, and most of what it draws does something.
"""
