"""The files of the board, and how they are read and written."""

import os

BOARD = os.path.dirname(os.path.realpath(__file__))
ROOT = os.path.dirname(BOARD)
DEVICE = f"{BOARD}/device.json"


def read(path):
    with open(path, "rb") as it:
        return it.read()


def write(path, contents):
    with open(path, "wb") as it:
        it.write(contents)
