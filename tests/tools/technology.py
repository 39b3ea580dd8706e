"""A technology for Magic with the layers that we name in LEF: technology.py LAYERS writes it to standard output."""

import sys

PARTS = """tech
 format 35
 pozqaben
end
version
 version 1.0
 description "the layers of a wiring"
end
planes
{planes}end
types
{types}end
contact
{contacts} stackable
end
styles
 styletype mos
{styles}end
compose
end
connect
{connections}end
cifoutput
style gds
 scalefactor 10 nanometers
 gridlimit 10
{outputs}end
cifinput
end
drc
end
lef
{layers}end
extract
 style none
 cscale 1
 lambda 10
{order}end
"""


def main():
    count = int(sys.argv[1])
    metals, cuts = range(1, count + 1), range(1, count)
    lines = lambda line, numbers: "".join(f" {line.format(l=l, next=l + 1)}\n" for l in numbers)
    print(
        PARTS.format(
            planes=lines("metal{l}", metals),
            types=lines("metal{l} metal{l}", metals) + lines("metal{l} via{l}", cuts),
            contacts=lines("via{l} metal{l} metal{next}", cuts),
            styles=lines("metal{l} 20", metals) + lines("via{l} 30", cuts),
            connections=lines("metal{l} metal{l}", metals) + lines("via{l} metal{l},metal{next}", cuts),
            order="".join(f" planeorder metal{l} {l - 1}\n" for l in metals),
            outputs=lines("layer M{l} metal{l}\n calma {l} 0", metals),
            layers=lines("routing metal{l} metal{l}", metals) + lines("cut via{l} via{l}", cuts),
        ),
        end="",
    )


main()
