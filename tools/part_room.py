"""A room of `part_seats`: a process that has parts solved and checked. Its link is the standard input."""

import os
import sys
from multiprocessing.connection import Connection

sys.dont_write_bytecode = True
sys.path.insert(1, os.path.join(os.path.dirname(os.path.abspath(__file__)), "..", "clients", "python"))

import part_seats

part_seats.serve(Connection(sys.stdin.fileno()))
