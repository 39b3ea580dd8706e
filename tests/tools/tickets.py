"""Random tickets as text, of every kind: tickets.py NUMBER FOLDER writes random_1.flat and so on."""

import random
import sys


def ticket(numbers):
    """A kind, a shape up to 24, and up to 180 nets on a part of the places; a net's only pin is left out."""
    kind = numbers.choice(["row", "channel", "box", "box", "two-layer"])
    length, width = numbers.randint(1, 24), numbers.randint(1, 24)
    layers = numbers.randint(1, 8)
    sides = {"row": [length], "channel": [length] * 2, "two-layer": [length] * 2, "box": [length, length, width, width]}[kind]
    filled = numbers.randint(2, 10) / 10
    most = min(180, numbers.randint(1, 1 + sum(sides) // 2))
    places = [[f"net[{numbers.randint(1, most)}]" if numbers.random() < filled else "." for _ in range(side)] for side in sides]
    flat = [name for side in places for name in side]
    head = {"box": f"box {length} {width}", "two-layer": f"two-layer {length}"}.get(kind, f"{kind} {length} {layers}")
    lines = [" ".join(name if flat.count(name) > 1 else "." for name in side) for side in places]
    return "\n".join([head] + lines) + "\n"


def main():
    number, folder = int(sys.argv[1]), sys.argv[2]
    numbers = random.Random(1)
    for index in range(1, number + 1):
        with open(f"{folder}/random_{index}.flat", "w", encoding="ascii") as file:
            file.write(ticket(numbers))


main()
