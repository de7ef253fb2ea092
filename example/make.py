"""Makes body.obj, track.txt, kernels.lines and session.txt: a made-up body like a spinning top, a straight track
through it, the kernels of kernels.txt in bracket lines, and lines for the program `bench` with the body and the kernels
in metres.

    python3 example/make.py        (writes them beside itself; kernels.txt is written by hand)
"""
import struct
from math import cos, exp, pi, sin, sqrt
from pathlib import Path

HERE = Path(__file__).parent
EDGES = 6  # of each side of the icosahedron: 20 * 36 faces


def unit(p):
    size = sqrt(sum(x * x for x in p))
    return tuple(x / size for x in p)


def icosahedron():
    g = (1 + sqrt(5)) / 2
    corners = [unit(p) for a in (-1, 1) for b in (-g, g) for p in ((0, a, b), (a, b, 0), (b, 0, a))]
    near = min(sum((x - y) ** 2 for x, y in zip(corners[0], q)) for q in corners[1:]) + 1e-9
    close = [[sum((x - y) ** 2 for x, y in zip(p, q)) < near for q in corners] for p in corners]
    triples = [(i, j, k) for i in range(12) for j in range(i + 1, 12) for k in range(j + 1, 12)
               if close[i][j] and close[j][k] and close[i][k]]
    return [outward([corners[i] for i in triple]) for triple in triples]


def outward(triangle):
    a, b, c = triangle
    turn = (a[0] * (b[1] * c[2] - b[2] * c[1]) + a[1] * (b[2] * c[0] - b[0] * c[2])
            + a[2] * (b[0] * c[1] - b[1] * c[0]))
    return triangle if turn > 0 else [a, c, b]


def radius(p):
    """In kilometres: a ball, an equatorial ridge, two broad swells and a crater."""
    x, y, z = p
    ridge = 0.062 * exp(-((z / 0.30) ** 2))
    swells = 0.014 * cos(3 * pi * x * y) + 0.012 * sin(2.3 * x + 4.1 * z)
    crater = 0.030 * exp(-((x - 0.62) ** 2 + (y - 0.36) ** 2 + (z - 0.70) ** 2) / 0.05)
    return 0.434 + ridge + swells - crater


def mesh():
    numbers, vertices, faces = {}, [], []

    def vertex(triangle, i, j):
        k = EDGES - i - j
        p = unit([(i * a + j * b + k * c) / EDGES for a, b, c in zip(*triangle)])
        key = tuple(round(x, 9) for x in p)
        if key not in numbers:
            numbers[key] = len(vertices) + 1
            r = radius(p)
            vertices.append(tuple(r * x for x in p))
        return numbers[key]

    for t in icosahedron():
        for i in range(EDGES):
            for j in range(EDGES - i):
                faces.append((vertex(t, i, j), vertex(t, i + 1, j), vertex(t, i, j + 1)))
                if i + j < EDGES - 1:
                    faces.append((vertex(t, i + 1, j), vertex(t, i + 1, j + 1), vertex(t, i, j + 1)))
    return vertices, faces


def hexadecimal(*xs):
    return " ".join(struct.pack(">d", x).hex().upper() for x in xs)


def file_kernels():
    """The default exponent of kernels.txt, and its kernels, in kilometres, with None for no exponent."""
    default, found = 1.0, []
    for line in (HERE / "kernels.txt").read_text().split("\n"):
        words = line.split("#")[0].split()
        if words[:1] == ["default"]:
            default = float(words[1])
        elif words:
            x, y, z, sigma, w = map(float, words[:5])
            found.append(([x, y, z], sigma, w, None if words[5] == "-" else float(words[5])))
    return default, found


def kernels():
    """In metres, as the library's own call makes them of the file's: c times 1000, sigma divided by 1000."""
    default, found = file_kernels()
    return [([x * 1000 for x in c], sigma / 1000, w, default if alpha is None else alpha)
            for c, sigma, w, alpha in found]


def kernel_line(c, sigma, w, alpha):
    exponent = "none" if alpha is None else hexadecimal(alpha)
    numbers = (hexadecimal(*c), hexadecimal(sigma), hexadecimal(w), exponent)
    return "(kernel (c %s) (sigma %s) (w %s) (alpha %s))" % numbers


def session(vertices, faces):
    metres = [tuple(float("%.6f" % x) * 1000 for x in v) for v in vertices]
    far = max(sqrt(x * x + y * y + z * z) for x, y, z in metres)
    lines = ["(open (radius %s) (verts %d) (faces %d))" % (hexadecimal(far), len(vertices), len(faces))]
    lines += ["(vert %s)" % hexadecimal(*v) for v in metres]
    lines += ["(face %d %d %d)" % tuple(i - 1 for i in f) for f in faces]
    put = "(put %d (c %s) (sigma %s) (w %s) (alpha %s))"
    puts = [put % (i, hexadecimal(*c), hexadecimal(s), hexadecimal(w), hexadecimal(a))
            for i, (c, s, w, a) in enumerate(kernels())]
    mass = "(mass %s)" % hexadecimal(4.5e11, 1190.0)
    lines += puts + ["(density (raw) %s)" % hexadecimal(0.0, 0.0, 0.0), "(report (raw))", "(advance 10000)", "(advance 20000)"]
    lines += ["(report (raw))", "(report (rho0 %s))" % hexadecimal(1190.0), "(report %s)" % mass]
    lines += ["(density %s %s)" % (mass, hexadecimal(230.0, 50.0, 190.0))]
    lines += ["(reweigh 1 %s)" % hexadecimal(0.0), "(report %s)" % mass, "(clear 2)", puts[0].replace("put 0", "put 32"), "hello"]
    return lines


def main():
    vertices, faces = mesh()
    (HERE / "session.txt").write_text("\n".join(session(vertices, faces)) + "\n")
    lines = [kernel_line(*kernel) for kernel in file_kernels()[1]]
    (HERE / "kernels.lines").write_text("\n".join(lines) + "\n")
    lines = ["# A made-up body like a spinning top, in kilometres; by make.py", "o body"]
    lines += ["v %.6f %.6f %.6f" % v for v in vertices]
    lines += ["f %d %d %d" % f for f in faces]
    (HERE / "body.obj").write_text("\n".join(lines) + "\n")

    lines = ["# A straight track through the body, a point every 5 metres; by make.py", "# x [km]  y [km]  z [km]"]
    lines += ["%.6f %.6f %.6f" % (-0.70 + 0.0048 * i, -0.125 + 0.0008 * i, 0.028 + 0.00115 * i) for i in range(281)]
    (HERE / "track.txt").write_text("\n".join(lines) + "\n")


main()
