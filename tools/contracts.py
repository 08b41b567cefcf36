#!/usr/bin/env python3
"""Prints the public contracts as they stand in the code, of all crates or of those that are named.

Use: tools/contracts.py [CRATE]...
"""

import itertools
import os
import sys
import textwrap

sys.dont_write_bytecode = True
os.chdir(os.path.dirname(os.path.dirname(os.path.abspath(__file__))))

from sources import contracts


def main():
    crates = set(sys.argv[1:])
    wanted = [contract for contract in contracts() if contract.clauses() or "ensures {" in contract.text]
    for path, found in itertools.groupby(wanted, lambda contract: contract.path):
        if not crates or path.split("/")[1] in crates:
            print("// %s\n" % path)
            for contract in found:
                if contract.lines[0].startswith(" "):
                    print("// of %s" % contract.owner)
                print(textwrap.dedent("\n".join(contract.lines)) + "\n")


if __name__ == "__main__":
    main()
