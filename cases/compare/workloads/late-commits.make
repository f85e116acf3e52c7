#!/bin/sh
# The workload whose commits land late.
cat "$(dirname "$0")/../../simulate/keys/late-commits"
