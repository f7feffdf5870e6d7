"""Prints the total of a bill: bill.py FILE

Each line of the file has a name and a price in cents. The status is 2 if one has not.
"""

import sys


def main():
    total = 0
    with open(sys.argv[1], encoding="utf-8") as file:
        for number, line in enumerate(file, 1):
            name, _, price = line.rpartition(" ")
            if not name or not price.strip().isdecimal():
                print(f"line {number} has no price", file=sys.stderr)
                return 2
            total += int(price)
    print(f"total {total // 100}.{total % 100:02}")
    return 0


sys.exit(main())
