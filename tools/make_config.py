#!/usr/bin/env python3
"""make_config.py COUNT [PORT] [K]: a config of f = 1 with so many operations of one client: puts, and now and then a get."""
import sys

count = int(sys.argv[1])
port = sys.argv[2] if len(sys.argv) > 2 else "40000"
interval = sys.argv[3] if len(sys.argv) > 3 else "16"
print(f"minbft config 2\nf 1\nk {interval}\nclients 1\nsecret {'07' * 32}\nport {port}")
for number in range(count):
    key = f"0461{number % 7:02x}6263"
    value = f"0004{number:08x}"
    print(f"op 02{key}" if number % 5 == 4 else f"op 01{key}{value}")
