#!/usr/bin/env python3
"""usage: talk.py [MUXSIM]   talks to a live session: opens streams until the driver refuses, and looks at what there is"""
import os
import sys

sys.path.insert(0, os.path.join(os.path.dirname(os.path.realpath(__file__)), "..", "python"))

import muxsim


def main():
    if len(sys.argv) > 2:
        sys.exit(__doc__)
    program = sys.argv[1] if len(sys.argv) == 2 else None
    try:
        with muxsim.Session(["ip mux 4 8 3 16"], version=1, program=program) as session:
            process = session.process(0)
            opened = process.clone("ip")
            while opened:
                print(opened)
                opened = process.clone("ip")
            print(opened)
            print(session.show() + "end")
    except muxsim.Error as error:
        sys.exit(f"talk.py: {error}")


if __name__ == "__main__":
    main()
