"""The user whom modes and owners of files hold back, as they don't root. It is known by its number, and needs no name."""
import os

NUMBER = 65534


def become():
    """Makes this process nobody's, for good."""
    os.setgroups([])
    os.setgid(NUMBER)
    os.setuid(NUMBER)
