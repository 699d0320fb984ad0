"""The area that a path of SVG encloses, whose parts after its first point are level or upright."""
import re


def area(path):
    x, y = map(float, re.match("M([0-9.]+) ([0-9.]+)", path).groups())
    points = [(x, y)]
    for way, number in re.findall("([HV])([0-9.]+)", path):
        x, y = (float(number), y) if way == "H" else (x, float(number))
        points.append((x, y))
    edges = zip(points, points[1:] + points[:1])
    return abs(sum(x * to_y - to_x * y for (x, y), (to_x, to_y) in edges)) / 2
