"""Shows the parts of an image, which `sigc build` writes, as text.

    sigc build examples/sum.sig > sum.img
    tools/sigc-image sum.img

First how many parts there are, then the signals with their kinds, the conditions, the memories with what they have at
first, the nodes of the guards, and the operations in the order in which they are done, each with its place in the program
and its guard. A guard or a child is `always`, `never` or the number of a node. Where the bytes are no image, it says which
byte begins the first field that is broken, as `sigc exec` does, and what is wanted there. It reads the file by itself:
`sigc exec` checks whether the image is sound.
"""
import argparse
import sys

from sigc.call import compiler
from sigc.image import image_text, images

def main():
    words = argparse.ArgumentParser(prog="sigc-image", description=__doc__, formatter_class=argparse.RawDescriptionHelpFormatter)
    words.add_argument("image", metavar="IMAGE", help="the file of an image")
    words.add_argument("--counts", action="store_true", help="only how many parts there are")
    words = words.parse_args()
    try:
        with open(words.image, "rb") as file:
            data = file.read(images.MOST_BYTES + 1)
        image = images.image_of(data)
    except OSError as error:
        hint = f": {compiler.NO_DASH}" if words.image == "-" else ""
        print(f"sigc-image: {words.image}: {error.strerror}{hint}", file=sys.stderr)
        return 1
    except images.Broken as error:
        print(f"sigc-image: {words.image}: {error}", file=sys.stderr)
        return 1
    parts = [(title, list(lines)) for title, lines in image_text.parts_of(image)]
    print(f"{len(data)} bytes: {image.inputs} inputs, {image.outputs} outputs, {', '.join(f'{len(lines)} {title}' for title, lines in parts)}")
    for title, lines in parts:
        if lines and not words.counts:
            print(f"\n{title}\n" + "\n".join(lines))
    return 0


def start():
    sys.exit(compiler.guarded(main))
