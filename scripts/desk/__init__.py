"""What the commands of this folder share: the rows of the program, the tables of a feed, names, cards and questions."""

import sys

if sys.version_info < (3, 9):
    sys.exit("This needs Python 3.9 or later, and is run by Python " + sys.version.split()[0] + ".")
