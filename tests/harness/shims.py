"""The small libraries of tests/shims/, which are loaded before the C library: they refuse a process memory, threads or
accepts, let its time pass sooner, make its syncs slow, or note what it does."""
import os

from . import TOP, running


def loaded(folder, name, **variables):
    """The variables by which a process is loaded with a library, which is compiled into this folder, and what else it
    is told by them, as REFUSED_GROWTH=1."""
    library = os.path.join(folder, f"{name}.so")
    if not os.path.exists(library):
        source = os.path.join(TOP, "tests", "shims", f"{name}.c")
        running.finished(["cc", "-O1", "-Wall", "-shared", "-fPIC", source, "-o", library], check=True)
    return {"LD_PRELOAD": library, **variables}


def together(one, other):
    """The variables by which a process is loaded with both."""
    return {**one, **other, "LD_PRELOAD": f"{one['LD_PRELOAD']}:{other['LD_PRELOAD']}"}


def pass_time(path, seconds):
    """Has the clocks of what is loaded with `ahead`, and was told this path, go ahead by so many seconds."""
    # a clock that is read meanwhile finds the whole number
    with open(f"{path}.new", "w", encoding="ascii") as file:
        file.write(str(seconds))
    os.replace(f"{path}.new", path)


def told(path):
    """The lines that a library wrote, each as its words, of which those that are numbers are given as such."""
    with open(path, encoding="ascii") as file:
        return [tuple(int(word) if word.lstrip("-").isdigit() else word for word in line.split()) for line in file]
