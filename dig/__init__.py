"""The dig list: GeoPackage in, measures by the proved library, list and picture out."""
import os
import sys

# the package viskorrel stands beside this one, in the repository as where it is installed
sys.path.insert(1, os.path.join(os.path.dirname(os.path.dirname(os.path.realpath(__file__))), "python"))
