"""The stored connections: tests/connections/ has of each what is sent, what comes back and the exit status."""
import os

import model
from harness import TOP

FOLDER = os.path.join(TOP, "tests", "connections")


def content(name):
    with open(os.path.join(FOLDER, name), "rb") as file:
        return file.read()


def connections():
    """The name of each stored connection, what is sent, what comes back and the exit status."""
    for name in sorted(os.listdir(FOLDER)):
        stem, suffix = os.path.splitext(name)
        if suffix == ".in":
            yield stem, content(name), content(stem + ".out"), int(content(stem + ".status"))


def unlike_the_model():
    """Stored connections that the model (tests/model.py) answers otherwise."""
    return [stem for stem, sent, replies, status in connections() if model.once(sent) != (replies, status)]
