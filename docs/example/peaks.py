#!/usr/bin/env python3
"""The example of the README: a trace of ten peaks, three unknowns each (height, place, width).

    peaks.py job                 the job text of one peak's region
    peaks.py areas < answer      the areas that a fit of the region reports, and those without one neighbour
    peaks.py picture < answer    the trace with the region drawn in, as SVG

`answer` is what peak_region wrote for that job. Only Python's own library is used.
"""
import math
import sys

# place in minutes, width (sigma) in minutes, height; the areas follow
PEAKS = [
    (1.10, 0.050, 5.2), (1.34, 0.050, 3.1), (1.80, 0.055, 4.0), (2.40, 0.060, 8.0), (2.63, 0.060, 5.0),
    (2.72, 0.060, 5.4), (3.02, 0.062, 3.0), (3.60, 0.060, 5.6), (4.10, 0.065, 4.4), (4.38, 0.065, 6.0),
]
NAMES = "ABCDEFGHIJ"
SEED, HOPS, DROPPED = 4, 1, 5  # the peak that is asked for, the hops, the neighbour that a wrong cutter drops


def area(place, width, height):
    return height * width * math.sqrt(2 * math.pi)


def overlap(i, j):
    """Two peaks overlap where they are closer than two and a half of their widths together."""
    return abs(PEAKS[i][0] - PEAKS[j][0]) < 2.5 * (PEAKS[i][1] + PEAKS[j][1])


def rows():
    """For each unknown the unknowns of its own peak and of later peaks that overlap it: an overlap is stored once."""
    for i in range(len(PEAKS)):
        for _ in range(3):
            yield [3 * j + k for j in range(i, len(PEAKS)) if i == j or overlap(i, j) for k in range(3)]


def job():
    ptr, cols = [0], []
    for row in rows():
        cols += row
        ptr.append(len(cols))
    listed = lambda xs: ",".join(map(str, xs))
    return (f"size={3 * len(PEAKS)}\nblocks={listed([3] * len(PEAKS))}\nptr={listed(ptr)}\ncols={listed(cols)}\n"
            f"seeds={3 * SEED}\nhops={HOPS}\n")


def read(answer):
    lines = dict(line.split("=", 1) for line in answer.splitlines())
    if "refused" in lines:
        sys.exit("refused " + lines["refused"])
    return {key: [int(x) for x in value.split(",") if x] for key, value in lines.items()}


def peaks_of(nodes):
    return sorted({node // 3 for node in nodes})


def signal(t, peaks):
    return sum(h * math.exp(-0.5 * ((t - p) / w) ** 2) for p, w, h in peaks)


def solve(a, b):
    n = len(b)
    m = [row[:] + [x] for row, x in zip(a, b)]
    for i in range(n):
        k = max(range(i, n), key=lambda r: abs(m[r][i]))
        m[i], m[k] = m[k], m[i]
        for r in range(i + 1, n):
            f = m[r][i] / m[i][i]
            for c in range(i, n + 1):
                m[r][c] -= f * m[i][c]
    x = [0.0] * n
    for i in reversed(range(n)):
        x[i] = (m[i][n] - sum(m[i][c] * x[c] for c in range(i + 1, n))) / m[i][i]
    return x


def fit(region, chosen):
    """Least squares of the trace over the region by the chosen peaks; the peaks outside the region are held as they are."""
    fixed = [PEAKS[i] for i in range(len(PEAKS)) if i not in region]
    low, high = PEAKS[region[0]][0] - 0.2, PEAKS[region[-1]][0] + 0.2
    times = [low + (high - low) * k / 240 for k in range(241)]
    data = [signal(t, PEAKS) - signal(t, fixed) for t in times]
    x = [v for i in chosen for v in (PEAKS[i][0] + 0.01, 1.1 * PEAKS[i][1], 0.8 * PEAKS[i][2])]  # a first guess that is off
    damping = 1e-3
    triples = lambda v: [tuple(v[k:k + 3]) for k in range(0, len(v), 3)]
    error = lambda v: sum((d - signal(t, triples(v))) ** 2 for t, d in zip(times, data))
    best = error(x)
    for _ in range(200):
        jac, res = [], []
        for t, d in zip(times, data):
            row = []
            for p, w, h in triples(x):
                g = math.exp(-0.5 * ((t - p) / w) ** 2)
                row += [h * g * (t - p) / w ** 2, h * g * (t - p) ** 2 / w ** 3, g]
            jac.append(row)
            res.append(d - signal(t, triples(x)))
        n = len(x)
        normal = [[sum(r[i] * r[j] for r in jac) for j in range(n)] for i in range(n)]
        right = [sum(r[i] * e for r, e in zip(jac, res)) for i in range(n)]
        for i in range(n):
            normal[i][i] *= 1 + damping
        step = solve(normal, right)
        trial = [a + b for a, b in zip(x, step)]
        if all(w > 0.01 for _, w, _ in triples(trial)) and error(trial) < best:
            best, x, damping = error(trial), trial, damping / 3
        else:
            damping *= 4
    top = max(data)
    worst = max(abs(d - signal(t, triples(x))) for t, d in zip(times, data))
    return {i: area(*p) for i, p in zip(chosen, triples(x))}, worst / top


def areas(answer):
    region = peaks_of(read(answer)["region"])
    whole, off = fit(region, region)
    short, worse = fit(region, [i for i in region if i != DROPPED])
    print("peak  area   whole region  without", NAMES[DROPPED])
    for i in region:
        lost = f"{short[i]:8.3f}" if i in short else "       -"
        print(f"   {NAMES[i]}  {area(*PEAKS[i]):.3f}  {whole[i]:12.3f}  {lost}")
    print(f"largest misfit: {100 * off:.2f} % of the highest point, without {NAMES[DROPPED]} {100 * worse:.1f} %")


def picture(answer):
    said = read(answer)
    region, frontier = peaks_of(said["region"]), peaks_of(said["frontier"])
    width, height, left, base = 900, 330, 40, 270
    x = lambda t: left + (t - 0.8) * (width - 2 * left) / 4.0
    y = lambda s: base - 24 * s
    point = lambda t, peaks: f"{x(t):.1f},{y(signal(t, peaks)):.1f}"
    path = lambda low, high, peaks: "M" + " L".join(point(low + (high - low) * k / 100, peaks) for k in range(101))
    out = [f'<svg xmlns="http://www.w3.org/2000/svg" viewBox="0 0 {width} {height}" font-family="sans-serif" font-size="13">',
           f'<rect width="{width}" height="{height}" fill="white"/>']
    first, last = PEAKS[region[0]], PEAKS[region[-1]]
    out.append(f'<rect x="{x(first[0] - 3 * first[1]):.1f}" y="30" width="{x(last[0] + 3 * last[1]) - x(first[0] - 3 * first[1]):.1f}" height="{base - 30}" fill="#e8f0fa"/>')
    for i, peak in enumerate(PEAKS):
        colour = "#b03020" if i == SEED else "#d08020" if i in frontier else "#2060a0" if i in region else "#b0b0b0"
        out.append(f'<path d="{path(peak[0] - 4 * peak[1], peak[0] + 4 * peak[1], [peak])}" fill="none" stroke="{colour}" stroke-width="1.5"/>')
        out.append(f'<text x="{x(peak[0]):.1f}" y="{base + 18}" text-anchor="middle" fill="{colour}">{NAMES[i]}</text>')
    trace = "M" + " L".join(point(0.8 + k / 100, PEAKS) for k in range(401))
    out.append(f'<path d="{trace}" fill="none" stroke="black"/>')
    out.append(f'<line x1="{left}" y1="{base}" x2="{width - left}" y2="{base}" stroke="black"/>')
    out.append(f'<text x="{left}" y="{base + 44}">black: the trace; red: the peak that is asked for; orange: its frontier after {said["completed"][0]} hop; '
               f'shaded: the region, peaks {", ".join(NAMES[i] for i in region)}; grey: not in it</text>')
    out.append("</svg>")
    print("\n".join(out))


if __name__ == "__main__":
    if sys.argv[1:] == ["job"]:
        sys.stdout.write(job())
    elif sys.argv[1:] == ["areas"]:
        areas(sys.stdin.read())
    elif sys.argv[1:] == ["picture"]:
        picture(sys.stdin.read())
    else:
        sys.exit(__doc__)
