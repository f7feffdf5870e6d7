"""Lets `python3 -m unittest`, called at the top, find the modules of this folder by their own names."""
import os
import sys

sys.dont_write_bytecode = True
sys.path.insert(0, os.path.dirname(os.path.abspath(__file__)))
