"""The example of the repository from Python: the field mass, and the density along the track.

    python3 host/python/example.py [TRACK.csv]

It runs with the library in CAUCHY_SO, in the repository's target/staticlib or in an installed wheel.
With a table that the program `cauchy` wrote, every density is compared with it, bit for bit.
"""
import csv
import sys
from pathlib import Path

import cauchy

EXAMPLE = Path(__file__).parents[2] / "example"


def rows(name):
    lines = (line.split("#")[0].split() for line in (EXAMPLE / name).read_text().splitlines())
    return [words for words in lines if words]


def open_store():
    lines = rows("body.obj")
    vertices = [float(x) * 1000 for word, *xyz in lines if word == "v" for x in xyz]
    faces = [int(i) - 1 for word, *corners in lines if word == "f" for i in corners]
    radius = max((x * x + y * y + z * z) ** 0.5 for x, y, z in zip(*[iter(vertices)] * 3))
    return cauchy.Store(radius, vertices, faces)


def put_kernels(store):
    lines = rows("kernels.txt")
    default = next((float(words[1]) for words in lines if words[0] == "default"), 1)
    kernels = [words for words in lines if words[0] != "default"]
    for place, (x, y, z, sigma, w, alpha, *layer) in enumerate(kernels):
        given = None if alpha == "-" else float(alpha)
        kernel = cauchy.kernel_from_file((float(x), float(y), float(z)), float(sigma), float(w), given, default)
        store.put(place, kernel, layer=int(layer[0]) if layer else 0)


def main():
    store = open_store()
    put_kernels(store)
    for done, left in store.work(5000):
        if sys.stderr.isatty():
            print(f"{done} of {done + left} steps", end="\r", file=sys.stderr)
    by_mass = cauchy.mass(4.5e11)
    report = store.report(by_mass)
    print(f"field mass {report.raw_mass:.6g} kg as entered, {report.applied_mass:.6g} kg by the convention mass")
    track = [[float(x) * 1000 for x in words] for words in rows("track.txt")]
    densities = store.density(by_mass, track).tolist()
    print(f"{len(track)} points, density {min(densities):.6g} to {max(densities):.6g} kg/m³")
    if len(sys.argv) > 1:
        with open(sys.argv[1], newline="") as table:
            told = [float(row["density_kg_m3"]) for row in csv.DictReader(table)]
        if told != densities:
            sys.exit(f"{sys.argv[1]}: not the densities of the store")
        print(f"each equal to {Path(sys.argv[1]).name}'s")


main()
