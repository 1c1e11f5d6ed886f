#!/usr/bin/env python3
"""Writes a script to standard output.

usage: bench/make.py KIND NUMBER..
  names N           N names, each set to a sphere and asked for its Betti numbers, and all names at the end
  renames N         N lines that set a hundred names again and again
  largest_table N   N times a table of 256 rows with 17 faces each but the first two, and questions about it
  grid_torus A B N [K]  the torus of A times B squares, each cut in two, and N rounds of questions about it over three fields; K is
                    part of the names of its cells, so that another K is another table
  graph V N         the complete graph on V vertices, and N rounds of questions
  solid N           a simplex of dimension 7 with all its faces, 255 cells, and N rounds of questions over all eight fields
  homotopy N        a line that asks for the filling of |N| - N |1| in K(Z,1), which has N - 1 terms
  lists N           N cycles of lists of two integers in K(Z,1), with four new keys of the table of results each
  suspensions N     a table of one vertex and 48 more cells, suspended seven times, and N rounds of questions over three fields
  square A B P      the square of the torus of A times B squares, each cut in two: its Betti numbers in degrees 0 to 4 over F_P
  cube P            the cube of the projective plane: its Betti numbers in degrees 0 to 6, and its cycles, over F_P
  power M N P       the M-th power of the projective plane times the N-th: its Betti numbers over F_P
  divided_plane P   the square of the projective plane with six vertices, each triangle cut in six: its Betti numbers over F_P
  bundle_times_torus A N   a circle bundle over the torus of A times A squares with values up to N, its homology over F_13, and that of its
                    product with the torus
  torus_bundle A B N   circle bundles over the torus of A times B squares with the value N on one triangle, over three fields
  sphere_bundle N   the circle bundle over the 2-sphere with the value N
  sphere_bundles N  N circle bundles over the 2-sphere with values from 49,000 downwards, over F_17
  long_chains N     N lines of up to 65,536 bytes, each one chain with thousands of terms that repeat the triangles of a torus
  long_refusals N   N lines of up to 65,536 bytes that are refused at their end
"""
import sys
from itertools import combinations

LINE = 65_536
PRIMES = (2, 3, 5, 7, 11, 13, 17, 19)


def table(name, rows):
    return f"(setf {name} (table {' '.join('(' + ' '.join(row) + ')' for row in rows)}))"


def names(count):
    for k in range(count):
        yield f"(setf a{k} (sphere {1 + k % 16}))"
        yield f"(betti a{k} 0 3)"
    yield "(names)"


def renames(count):
    for k in range(count):
        yield f"(setf a{k % 100} (sphere {1 + k % 16}))"
    yield "(names)"


def largest_table(count):
    degenerate = "-".join(str(j) for j in reversed(range(14))) + ":v"
    rows = [["v"], ["w"] + [degenerate] * 16] + [[f"c{k}"] + ["w"] * 17 for k in range(254)]
    for _ in range(count):
        yield table("x", rows)
        yield "(betti x 0 16)"
        yield "(homology x 16)"
        yield "(express x 15 (1 w))"
        yield "(express x 16 (1 c0) (-1 c253))"


def grid_torus_rows(wide, high, mark=""):
    """Vertices, then the edges to the right, up and across, then the two triangles of each square."""
    def at(kind, i, j):
        return f"{kind}{i % wide}_{j % high}{mark}"
    places = [(i, j) for i in range(wide) for j in range(high)]
    rows = [[at("v", i, j)] for i, j in places]
    rows += [[at("r", i, j), at("v", i + 1, j), at("v", i, j)] for i, j in places]
    rows += [[at("u", i, j), at("v", i, j + 1), at("v", i, j)] for i, j in places]
    rows += [[at("d", i, j), at("v", i + 1, j + 1), at("v", i, j)] for i, j in places]
    rows += [[at("s", i, j), at("u", i + 1, j), at("d", i, j), at("r", i, j)] for i, j in places]
    rows += [[at("t", i, j), at("r", i, j + 1), at("d", i, j), at("u", i, j)] for i, j in places]
    return rows


def grid_torus(wide, high, count, number=None):
    mark = "" if number is None else f"_{number}"
    yield table("torus", grid_torus_rows(wide, high, mark))
    around = " ".join(f"(1 r{i}_{high // 2}{mark})" for i in range(wide))
    for _ in range(count):
        for p in (2, 3, 19):
            yield f"(field {p})"
            yield "(betti torus 0 2)"
            yield "(homology torus 0)"
            yield "(homology torus 1)"
            yield "(homology torus 2)"
            yield f"(express torus 1 {around})"
            yield f"(express torus 0 (1 v0_0{mark}) (-1 v{wide - 1}_{high - 1}{mark}))"


def graph(vertices, count):
    rows = [[f"v{i}"] for i in range(vertices)]
    rows += [[f"e{i}_{j}", f"v{j}", f"v{i}"] for i, j in combinations(range(vertices), 2)]
    yield table("graph", rows)
    for _ in range(count):
        yield "(betti graph 0 1)"
        yield "(homology graph 1)"
        yield f"(express graph 0 (1 v0) (1 v{vertices - 1}))"


def solid(count):
    faces = [face for size in range(1, 9) for face in combinations("01234567", size)]
    def name(face):
        return "c" + "".join(face)
    rows = [[name(face)] + [name(face[:i] + face[i + 1:]) for i in range(len(face)) if len(face) > 1] for face in faces]
    yield table("solid", rows)
    for _ in range(count):
        for p in PRIMES:
            yield f"(field {p})"
            yield "(betti solid 0 8)"
            yield "(express solid 2 (1 c123) (-1 c023) (1 c013) (-1 c012))"
            yield "(homology solid 0)"


def homotopy(number):
    yield "(field 7)"
    yield f"(express (k-z-1) 1 (1 |{number}|))"


def lists(count):
    for b in range(2, count + 2):
        # d of |1|1|b|
        yield f"(express (k-z-1) 2 (1 |1|{b}|) (-1 |2|{b}|) (1 |1|{b + 1}|) (-1 |1|1|))"


def suspensions(count):
    rows = [["v"]]
    for k in range(24):
        rows += [[f"e{k}", "v", "v"], [f"t{k}", f"e{k}", "0:v", f"e{k}"]]
    yield table("s0", rows)
    for k in range(7):
        yield f"(setf s{k + 1} (suspension s{k}))"
    top = "^" * 7
    for _ in range(count):
        for p in (2, 3, 19):
            yield f"(field {p})"
            yield "(betti s7 0 10)"
            yield "(homology s7 8)"
            yield f"(boundary s7 9 (1 {top}t0) (2 {top}t23))"
            yield f"(express s7 8 (2 {top}e0))"


def square(wide, high, prime):
    yield table("torus", grid_torus_rows(wide, high))
    yield f"(field {prime})"
    yield "(betti (crts-prdc torus torus) 0 4)"


def cube(prime):
    yield table("rp2", [["v"], ["e", "v", "v"], ["t", "e", "0:v", "e"]])
    yield "(setf square (crts-prdc rp2 rp2))"
    yield "(setf cube (crts-prdc rp2 square))"
    yield f"(field {prime})"
    yield "(betti cube 0 6)"
    for n in range(7):
        yield f"(homology cube {n})"


def power(left, right, prime):
    yield table("p1", [["v"], ["e", "v", "v"], ["t", "e", "0:v", "e"]])
    for k in range(2, max(left, right) + 1):
        yield f"(setf p{k} (crts-prdc p1 p{k - 1}))"
    yield f"(setf power (crts-prdc p{left} p{right}))"
    yield f"(field {prime})"
    yield f"(betti power 0 {2 * (left + right)})"


def divided_plane(prime):
    triangles = "123 124 135 146 156 236 245 256 345 346".split()
    faces = sorted({face for triangle in triangles for size in (1, 2, 3) for face in combinations(triangle, size)}, key=lambda face: (len(face), face))
    chains = {(face,) for face in faces}
    chains |= {(a, b) for a, b in combinations(faces, 2) if set(a) < set(b)}
    chains |= {(a, b, c) for a, b, c in combinations(faces, 3) if set(a) < set(b) < set(c)}
    def name(chain):
        return "c" + "_".join("".join(face) for face in chain)
    rows = [[name(chain)] + [name(chain[:i] + chain[i + 1:]) for i in range(len(chain)) if len(chain) > 1] for chain in sorted(chains, key=lambda chain: (len(chain), chain))]
    yield f"(field {prime})"
    yield table("plane", rows)
    yield "(betti (crts-prdc plane plane) 0 4)"


def bundle_times_torus(size, most):
    yield "(field 13)"
    yield table("torus", grid_torus_rows(size, size))
    numbers = [(kind, i, j, (7 * i * i + 11 * j + 3 * i * j + (5 if kind == "t" else 0)) % (2 * most) - most) for i in range(size) for j in range(size) for kind in "st"]
    yield "(setf b (bundle torus " + " ".join(f"({kind}{i}_{j} {number})" for kind, i, j, number in numbers if number) + "))"
    yield "(betti b 0 3)"
    for n in (1, 2, 3):
        yield f"(homology b {n})"
    yield "(setf c (crts-prdc b torus))"
    yield "(betti c 0 5)"
    yield "(homology c 1)"


def sphere_bundles(count):
    yield "(field 17)"
    for k in range(count):
        yield f"(betti (bundle (sphere 2) (S2 {49000 - 997 * k})) 0 4)"


def torus_bundle(wide, high, value):
    yield table("torus", grid_torus_rows(wide, high))
    yield f"(setf b (bundle torus (s0_0 {value})))"
    for p in (2, 3, 19):
        yield f"(field {p})"
        yield "(betti b 0 3)"
        yield "(homology b 1)"
        yield "(homology b 3)"
        yield "(express b 1 (1 <0:v0_0,|1|>) (-1 <0:v1_1,|1|>))"


def sphere_bundle(value):
    yield f"(betti (bundle (sphere 2) (S2 {value})) 0 3)"


def filled(start, parts, end):
    """The start, as many parts as fit in a line, and the end."""
    line, room = [start], LINE - len(start) - len(end)
    k = 0
    while len(parts[k % len(parts)]) <= room:
        part = parts[k % len(parts)]
        line.append(part)
        room -= len(part)
        k += 1
    return "".join(line) + end


def long_chains(count):
    yield table("torus", grid_torus_rows(6, 7))
    # 5 has no common factor with the number of squares, so that the terms come in another order than the cells
    parts = [f" ({1 + k % 9} {'st'[k // 42]}{5 * k % 6}_{5 * k % 7})" for k in range(84)]
    yield "(field 19)"
    for _ in range(count):
        yield filled("(boundary torus 2", parts, ")")


def long_refusals(count):
    lines = [
        filled("(boundary (sphere 1) 1", [" (1 S1)"], " (1 S1"),
        filled("(betti (table", [" (v)"], ") 0)"),
        filled("", ["("], ""),
        filled("(boundary (sphere 1) 1 (1 ", ["[S1 "], "))"),
        filled("(boundary (sphere 1) 1 (1 ", ["0-"], ":S1))"),
        filled("(betti ", ["a"], " 0 1)"),
        filled("", [" "], "x"),
    ]
    for k in range(count):
        yield lines[k % len(lines)]


KINDS = {kind.__name__: kind for kind in (names, renames, largest_table, grid_torus, graph, solid, homotopy, lists, suspensions, square, cube, power, divided_plane, bundle_times_torus, torus_bundle, sphere_bundle, sphere_bundles, long_chains, long_refusals)}


def main():
    if len(sys.argv) < 3 or sys.argv[1] not in KINDS:
        sys.exit(__doc__)
    for line in KINDS[sys.argv[1]](*map(int, sys.argv[2:])):
        assert len(line) <= LINE
        sys.stdout.write(line + "\n")


if __name__ == "__main__":
    main()
