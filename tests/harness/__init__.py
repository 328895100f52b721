"""What the scripts share that drive the built program:

- `suite`: cases, their checks, and the count of these
- `running`: the program, and what it serves
- `wire`: clients
- `pushers`: what clients store and find again, and some that push by chance
- `data`: data directories, servers on them, and what is spoiled in them
- `disks`: what a power cut may leave of them
- `registry`: the reverse proxy and the other servers of deploy/ before `blobd serve`, and their clients
- `listeners`: what the tests let a push connect to
- `shims`: libraries that refuse a process memory or threads, let its time pass, or watch it
"""
import os
import sys

TOP = os.path.dirname(os.path.dirname(os.path.dirname(os.path.abspath(__file__))))
# modules of these are imported by their names
sys.path[:0] = [os.path.join(TOP, "deploy"), os.path.join(TOP, "tools")]
