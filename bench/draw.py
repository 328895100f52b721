#!/usr/bin/env python3
"""Draws the figures that `bench/loopback.py --json FILE` wrote.

    draw.py FILE PICTURE

Speeds of uploads, pushes and pulls beside `sha256sum` and `docker-registry`, and the longest wait for a small request
beside a large body. The picture is an SVG.
"""
import json
import math
import sys
from html import escape

MIB = 1 << 20
COLOURS = {"blobd": "#2b6cb0", "docker-registry": "#9aa3b2", "sha256sum": "#d69e2e"}
UPLOADS = {
    "upload in one body": "upload,\none body",
    "upload in chunks of 16 MiB": "chunks of\n16 MiB",
    "upload in chunks of 4 MiB": "chunks of\n4 MiB",
    "upload in chunks of 1 MiB": "chunks of\n1 MiB",
    "two uploads in one body": "two at once,\none body each",
    "push in one chunk": "push,\none chunk",
}
PULLS = {"pull": "one pull", "two pulls": "two at once"}
WIDTH, HEIGHT, TOP, BOTTOM = 1120, 340, 60, 280  # the picture, and where the bars end


def values_of(told, names, value):
    """A value of each row of these names, by its server. A server without a row is left out."""
    series = {
        server: {row["what"]: value(row) for row in told["rows"] if row["server"] == server and row["what"] in names}
        for server in ("blobd", "docker-registry")
    }
    return {server: values for server, values in series.items() if values}


def speeds(told, names):
    return values_of(told, names, lambda row: row["bytes_a_second"] / MIB)


def hashing(told):
    """The best speed of `sha256sum`, for each upload that it ran beside."""
    rows = [row for row in told["rows"] if row["kind"] == "upload"]
    best = max(row["bytes_a_second"] / row["of_sha256sum"] / MIB for row in rows)
    return {row["what"]: best for row in rows}


def text(x, y, words, anchor="middle", size=11):
    return f'<text x="{x:.0f}" y="{y:.0f}" text-anchor="{anchor}" font-size="{size}">{escape(words)}</text>'


def step(most):
    """The distance of the marks on an axis: three to seven of them, at 1, 2 or 5 times a power of ten."""
    power = 10 ** math.floor(math.log10(most / 3))
    return max(power * times for times in (1, 2, 5) if power * times * 3 <= most)


def chart(left, right, title, names, series):
    """Bars side by side: for each name one of each series that has it."""
    most = max(value for values in series.values() for value in values.values()) * 1.05
    scale = (BOTTOM - TOP) / most
    yield text(left, TOP - 16, title, "start", 13)
    for mark in (step(most) * at for at in range(int(most / step(most)) + 1)):
        y = BOTTOM - mark * scale
        yield f'<line x1="{left}" y1="{y:.0f}" x2="{right}" y2="{y:.0f}" stroke="#dddddd"/>'
        yield text(left - 6, y + 4, f"{mark:g}", "end")
    group = (right - left) / len(names)
    width = 0.8 * group / len(series)
    for at, (what, label) in enumerate(names.items()):
        for place, (server, values) in enumerate(series.items()):
            if what in values:
                x, value = left + group * (at + 0.1) + width * place, values[what]
                y = BOTTOM - value * scale
                yield (
                    f'<rect x="{x:.1f}" y="{y:.1f}" width="{width:.1f}" height="{BOTTOM - y:.1f}"'
                    f' fill="{COLOURS[server]}"/>'
                )
                yield text(x + width / 2, y - 3, f"{value:.0f}" if value >= 10 else f"{value:.1f}", size=9)
        for down, line in enumerate(label.split("\n")):
            yield text(left + group * (at + 0.5), BOTTOM + 16 + 13 * down, line)


def picture(told):
    waiting = [row["what"] for row in told["rows"] if row["kind"] == "waiting" and row["server"] == "blobd"]
    names = {what: what.replace(" in one body", ",\none body").replace(" of ", "\nof ") for what in waiting}
    waits = values_of(told, names, lambda row: row["longest_wait_seconds"] * 1000)
    yield f'<svg xmlns="http://www.w3.org/2000/svg" viewBox="0 0 {WIDTH} {HEIGHT}" font-family="sans-serif">'
    yield f'<rect width="{WIDTH}" height="{HEIGHT}" fill="white"/>'
    for at, (server, colour) in enumerate(COLOURS.items()):
        yield f'<rect x="{45 + 130 * at}" y="10" width="12" height="12" fill="{colour}"/>'
        yield text(62 + 130 * at, 20, server, "start")
    yield from chart(45, 630, "uploads, MiB a second", UPLOADS, {**speeds(told, UPLOADS), "sha256sum": hashing(told)})
    yield from chart(695, 845, "pulls, MiB a second", PULLS, speeds(told, PULLS))
    yield from chart(885, 1110, "longest wait for GET /v2/, ms", names, waits)
    yield "</svg>"


def main():
    if len(sys.argv) != 3:
        sys.exit("usage: draw.py FILE PICTURE")
    with open(sys.argv[1], encoding="utf-8") as file:
        told = json.load(file)
    with open(sys.argv[2], "w", encoding="utf-8") as file:
        file.writelines(line + "\n" for line in picture(told))
    print(f"drawn: {sys.argv[2]}")


if __name__ == "__main__":
    main()
