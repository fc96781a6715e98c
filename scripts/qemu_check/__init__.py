"""What scripts/on_qemu is made of: the reading of a test file, a machine in Python, QEMU, and the comparison."""
