"""Sections 4 and 5 for small lots: the coordinates of a distance matrix and the right count of an assignment, summed in document 01's order."""
import math


def added(xs, start=-0.0):
    for x in xs:
        start += x
    return start


def eigenpairs(a, n):
    """Jacobi's rotations: values in descending order, vectors as rows. Above n = 64 `pcoa` takes another way, which is not here."""
    assert n <= 64
    m, v = [row[:] for row in a], [[float(i == j) for j in range(n)] for i in range(n)]
    for _ in range(100):
        if added(m[i][j] * m[i][j] for i in range(n) for j in range(n) if i != j) < 1e-22:
            break
        for p in range(n):
            for q in range(p + 1, n):
                if abs(m[p][q]) >= 1e-300:
                    rotate(m, v, n, p, q)
    order = sorted(range(n), key=lambda i: -m[i][i])
    return [m[i][i] for i in order], [[v[k][i] for k in range(n)] for i in order]


def rotate(m, v, n, p, q):
    theta = (m[q][q] - m[p][p]) / (2.0 * m[p][q])
    t = 1.0 if theta == 0 else math.copysign(1.0, theta) / (abs(theta) + math.sqrt(theta * theta + 1.0))
    c = 1.0 / math.sqrt(t * t + 1.0)
    s = t * c
    for k in range(n):
        m[k][p], m[k][q] = c * m[k][p] - s * m[k][q], s * m[k][p] + c * m[k][q]
    m[p], m[q] = [c * x - s * y for x, y in zip(m[p], m[q])], [s * x + c * y for x, y in zip(m[p], m[q])]
    for k in range(n):
        v[k][p], v[k][q] = c * v[k][p] - s * v[k][q], s * v[k][p] + c * v[k][q]


def coordinates(d, n, components):
    """`pcoa`: a row for each sample."""
    square = [[d[i * n + j] * d[i * n + j] for j in range(n)] for i in range(n)]
    means = [added(row) / n for row in square]
    grand = added(means) / n
    values, vectors = eigenpairs([[-0.5 * (square[i][j] - means[i] - means[j] + grand) for j in range(n)] for i in range(n)], n)
    columns = []
    for e, x in list(zip(values, vectors))[:components]:
        sign = -1.0 if max(x, key=abs) < 0 else 1.0
        columns.append([sign * y * math.sqrt(max(e, 0.0)) for y in x])
    return [list(row) for row in zip(*columns)]


def lower(f, b):
    x = []
    for i, row in enumerate(f):
        s = b[i]
        for k in range(i):
            s -= row[k] * x[k]
        x.append(s / row[i])
    return x


def upper(f, b):
    p = len(f)
    x = [0.0] * p
    for i in reversed(range(p)):
        s = b[i]
        for k in range(i + 1, p):
            s -= f[k][i] * x[k]
        x[i] = s / f[i][i]
    return x


def factor(a):
    """Cholesky's."""
    f = []
    for i, row in enumerate(a):
        f.append([])
        for j in range(i + 1):
            s = row[j]
            for k in range(j):
                s -= f[i][k] * f[j][k]
            assert i != j or s > 0
            f[i].append(math.sqrt(s) if i == j else s / f[j][j])
    return f


def right_count(xs, way, g):
    """How many samples `dapc` assigns to their own group, or None. `xs` has the coordinates of the kept samples."""
    m = len(xs)
    p = min(len(xs[0]), max(0, m - (g + 1)))
    if p < 2:
        return None
    columns = range(p)
    size = [float(way.count(x)) for x in range(g)]
    grand = [added(x[c] for x in xs) / m for c in columns]
    means = [[added((x[c] for x, own in zip(xs, way) if own == k), 0.0) / size[k] for c in columns] for k in range(g)]
    inner = [[added(((x[a] - means[own][a]) * (x[b] - means[own][b]) for x, own in zip(xs, way)), 0.0) for b in columns] for a in columns]
    between = [[added((size[k] * (means[k][a] - grand[a]) * (means[k][b] - grand[b]) for k in range(g)), 0.0) for b in columns] for a in columns]
    ridge = 1e-8 * max(added(inner[a][a] for a in columns), 1e-12) / p
    for a in columns:
        inner[a][a] += ridge
    f = factor(inner)
    halves = [lower(f, [between[i][j] for i in columns]) for j in columns]
    white = [lower(f, [halves[j][i] for j in columns]) for i in columns]
    for i in columns:
        for j in range(i + 1, p):
            white[i][j] = white[j][i] = (white[i][j] + white[j][i]) / 2.0
    axes = [upper(f, u) for u in eigenpairs(white, p)[1][:min(g - 1, p)]]
    scores = [[added((x[c] - grand[c]) * axis[c] for c in columns) for axis in axes] for x in xs]
    centroids = [[added((s[a] / size[k] for s, own in zip(scores, way) if own == k), 0.0) for a in range(len(axes))] for k in range(g)]
    nearest = [min(range(g), key=lambda k: added((x - c) * (x - c) for x, c in zip(s, centroids[k]))) for s in scores]
    return sum(a == b for a, b in zip(nearest, way))
