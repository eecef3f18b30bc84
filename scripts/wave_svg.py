#!/usr/bin/env python3
"""wave_svg.py FROM TO < DUMP: a picture of a dump of ./wave between two times in µs, as SVG on standard output: the SCL and SDA lines as they
are, the requests A and D, and the phase of the bus by name. Each time at which one of them changes is as far from the next as any other, since
several events may stand between two 8 µs clocks; below is the time in µs."""
import re
import sys

WIDTH, ROW, LEFT, HIGH = 1000, 26, 76, 14
ROWS = [("C", "SCL"), ("D", "SDA"), ("H", "request A"), ("I", "request D"), ("P", "phase")]
PHASES = ["idle", "address", "addressed", "ignoring", "receive", "transmit", "held"]


def changes(text):
    """Of each code its values with their times in ns."""
    body = text.split("$enddefinitions $end", 1)[1]
    time, found = 0, {}
    for line in body.split("\n"):
        if line.startswith("#"):
            time = int(line[1:])
        elif line.startswith("b"):
            value, code = line[1:].split(" ")
            found.setdefault(code, []).append((time, int(value, 2)))
        elif line:
            found.setdefault(line[1:], []).append((time, int(line[0])))
    return found


def spans(values, start, end):
    """(from, to, value) within the times."""
    for k, (time, value) in enumerate(values):
        until = values[k + 1][0] if k + 1 < len(values) else end
        if max(time, start) < min(until, end):
            yield max(time, start), min(until, end), value


def main(start, end):
    start, end = start * 1000, end * 1000
    found = changes(sys.stdin.read())
    times = sorted({start, end} | {time for code, _ in ROWS for time, _ in found[code] if start < time < end})
    place = {time: LEFT + k * (WIDTH - LEFT) / (len(times) - 1) for k, time in enumerate(times)}
    x = lambda time: f"{place[time]:.1f}".removesuffix(".0")
    out = [
        f'<svg xmlns="http://www.w3.org/2000/svg" viewBox="0 0 {WIDTH} {ROW * len(ROWS) + 22}" font-family="sans-serif" font-size="11">',
        f'<rect width="{WIDTH}" height="{ROW * len(ROWS) + 22}" fill="#fff"/>',
    ]
    for row, (code, name) in enumerate(ROWS):
        top = row * ROW + 6
        out.append(f'<text x="4" y="{top + 11}">{name}</text>')
        if code == "P":
            for a, b, value in spans(found[code], start, end):
                wide = place[b] - place[a]
                out.append(f'<rect x="{x(a)}" y="{top}" width="{wide:.1f}" height="{HIGH}" fill="#eef" stroke="#446" stroke-width=".6"/>')
                if wide > 6 * len(PHASES[value]):
                    out.append(f'<text x="{place[a] + 3:.1f}" y="{top + 11}">{PHASES[value]}</text>')
            continue
        points = []
        for a, b, value in spans(found[code], start, end):
            y = top if value else top + HIGH
            points += [f"{x(a)},{y}", f"{x(b)},{y}"]
        out.append(f'<polyline fill="none" stroke="#024" stroke-width="1.2" points="{" ".join(points)}"/>')
    for time in times[:-1:12]:
        out.append(f'<text x="{x(time)}" y="{ROW * len(ROWS) + 17}" fill="#666">{time // 1000}</text>')
    out.append("</svg>")
    print("\n".join(out))


if __name__ == "__main__":
    if len(sys.argv) != 3 or not all(re.fullmatch(r"\d+", word) for word in sys.argv[1:]):
        sys.exit(__doc__)
    main(int(sys.argv[1]), int(sys.argv[2]))
