"""Stands for the package shared/ beside this folder, which takes its name."""
import os
import sys

TOP = os.path.dirname(os.path.dirname(os.path.realpath(__file__)))
sys.path.insert(0, TOP)
del sys.modules[__name__]
__import__(__name__)
sys.path.remove(TOP)
