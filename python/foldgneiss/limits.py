"""The most bytes that files may have, and the greatest numbers in files and calls."""
KEY_BYTES = 256
IMAGE_BYTES = 1048576
SCRIPT_BYTES = 1048576
POLICY_BYTES = 65536
REPORTS_BYTES = 1048576
TRACE_BYTES = 67108864
MOST_STEPS = 10000000
MOST_COUNTER = 4294967295  # the last step, and the number of a report or a line too
