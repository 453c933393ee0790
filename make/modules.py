#!/usr/bin/env python3
"""Prints the folder for Python's modules into which `make install-dli` puts hd.py.

    make/modules.py [PREFIX]

Without PREFIX it is Python's own folder for modules that come from elsewhere. With PREFIX it is the first of the folders below PREFIX/lib in which Python looks; where it
looks in none there, it is the one that a Python of this version which stood at PREFIX would have.
"""
import os
import site
import sys
import sysconfig


def places():
    """The folders in which Python looks for modules that come from elsewhere, its user's among them."""
    return [sysconfig.get_path("purelib"), *site.getsitepackages(), site.getusersitepackages()]


def place_below(prefix):
    """The folder for modules below a prefix."""
    library = os.path.join(os.path.abspath(prefix), "lib", "")
    for place in places():
        if place.startswith(library):
            return place
    return sysconfig.get_path("purelib", "posix_prefix", vars={"base": os.path.abspath(prefix)})


if __name__ == "__main__":
    print(place_below(sys.argv[1]) if sys.argv[1:] else sysconfig.get_path("purelib"))
