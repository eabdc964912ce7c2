"""What the fuzzer is made of: meanings, two ends and their network, captures, changes, and runs of the program."""
