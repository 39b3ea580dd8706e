"""For KLayout: extracts the nets of every wiring in a folder and compares them with its ticket's.

A wiring NAME has NAME.ticket (the flat ticket as text), NAME.wiring (whose first line has its sizes), NAME.gds, NAME.def and NAME.lef.
What is compared: which pins each net of the layout joins, and its name. A piece of metal that joins no pin is a net of no pins, which
no ticket has. As a control the same nets are compared with a ticket that has two pins exchanged, and must differ.
"""

import glob
import sys

import pya

STEP = 1000  # nanometres
PINS = (256, 0)
LABELS = (256, 10)


def expected(text, width):
    """The pins of each net: their places around a grid of this width."""
    lines = text.split("\n")
    head = lines[0].split()
    length = int(head[1])
    around = [
        lambda place: (place, width + 1),
        lambda place: (place, 0),
        lambda place: (0, place),
        lambda place: (length + 1, place),
    ]
    nets = {}
    for at, line in zip(around, lines[1:]):
        for index, name in enumerate(line.split()):
            if name != ".":
                nets.setdefault(name, set()).add(at(index + 1))
    return nets


def exchanged(nets):
    """The nets with a pin of the first exchanged for one of the second."""
    first, second = sorted(nets)[:2]
    a, b = min(nets[first]), min(nets[second])
    return {**nets, first: nets[first] - {a} | {b}, second: nets[second] - {b} | {a}}


def extracted(layout, metals, cuts, pins, labels):
    """The nets' names and pins, by KLayout: cut l joins the metals l and l + 1, and a pin all metals that it overlaps."""
    l2n = pya.LayoutToNetlist(pya.RecursiveShapeIterator(layout, layout.top_cell(), []))
    metals = [l2n.make_polygon_layer(index, f"metal{number}") for number, index in enumerate(metals, 1)]
    cuts = [l2n.make_polygon_layer(index, f"cut{number}") for number, index in enumerate(cuts, 1)]
    pins = [l2n.make_polygon_layer(index, f"pins{number}") for number, index in enumerate(pins)]
    labels = [l2n.make_text_layer(index, f"labels{number}") for number, index in enumerate(labels)]
    for layer in metals + cuts + pins:
        l2n.connect(layer)
    for number, cut in enumerate(cuts):
        l2n.connect(cut, metals[number])
        l2n.connect(cut, metals[number + 1])
    for pin in pins:
        for layer in metals + labels + [other for other in pins if other is not pin]:
            l2n.connect(pin, layer)
    l2n.extract_netlist()
    circuit = l2n.netlist().circuit_by_name(layout.top_cell().name)
    nets = []
    for net in circuit.each_net() if circuit else []:  # there is none where nothing is drawn
        shapes = [shape for pin in pins for shape in l2n.shapes_of_net(net, pin, True).each_merged()]
        centres = [shape.bbox().center() for shape in shapes]
        nets.append((net.name, {(centre.x // STEP, centre.y // STEP) for centre in centres}))
    return nets


def same(nets, expected_nets):
    """Whether the nets are these, each once."""
    return sorted((name, sorted(pins)) for name, pins in nets) == sorted((name, sorted(pins)) for name, pins in expected_nets.items())


def from_gds(name, layers):
    layout = pya.Layout()
    layout.read(f"{name}.gds")
    known = {(layout.get_info(index).layer, layout.get_info(index).datatype) for index in layout.layer_indexes()}
    metals = {(layer, 0) for layer in range(1, layers + 1)}
    cuts = {(layer, 1) for layer in range(1, layers)}
    assert known <= metals | cuts | {PINS, LABELS}, known
    index = lambda pair: layout.layer(*pair)
    return extracted(layout, map(index, sorted(metals)), map(index, sorted(cuts)), [index(PINS)], [index(LABELS)])


def from_def(name, layers):
    layout = pya.Layout()
    options = pya.LoadLayoutOptions()
    config = options.lefdef_config
    config.lef_files = [f"{name}.lef"]
    config.read_lef_with_def = False
    options.lefdef_config = config
    layout.read(f"{name}.def", options)
    by_name = {layout.get_info(index).name: index for index in layout.layer_indexes()}
    # A layer that nothing is drawn on is not there.
    index = lambda word: by_name[word] if word in by_name else layout.layer(pya.LayerInfo(word))
    metals = [index(f"metal{layer}") for layer in range(1, layers + 1)]
    cuts = [index(f"via{layer}") for layer in range(1, layers)]
    pins = [number for word, number in sorted(by_name.items()) if word.endswith(".PIN")]
    labels = [number for word, number in sorted(by_name.items()) if word.endswith(".LABEL")]
    return extracted(layout, metals, cuts, pins, labels)


def main():
    compared, wrong = 0, 0
    # KLayout's command line sets `folder`.
    for path in sorted(glob.glob(f"{folder}/*.wiring")):
        name = path[: -len(".wiring")]
        with open(path, "rb") as file:
            words = file.readline().decode().split()
        width, layers = int(words[4]), int(words[6])
        with open(f"{name}.ticket", encoding="ascii") as file:
            nets = expected(file.read(), width)
        for way, found in [("gds", from_gds(name, layers)), ("def", from_def(name, layers))]:
            compared += 1
            if not same(found, nets) or len(nets) > 1 and same(found, exchanged(nets)):
                wrong += 1
                print(f"DIFFERENT: {name}.{way}")
    print(f"{compared} layouts extracted, {wrong} differ from their tickets")
    sys.exit(1 if wrong or not compared else 0)


main()
