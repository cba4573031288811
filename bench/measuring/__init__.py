"""The commands of bench/bench, a file each, and what they share: `counting` has callgrind and gdb, `capbench` and `scripted` the work
that is counted, `lines` and `dearest` what scripts are made of.
"""
