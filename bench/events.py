"""The script of the load with events: a byte each 1,000 steps, and new pins between them, 10,000 of
each.
"""
for number in range(10000):
    print(f"at {1000 * number} rx {number % 256:02x}")
    print(f"at {1000 * number + 500} p1 {number:04x}")
