#!/bin/sh
# The workload of examples/workloads.
cat "$(dirname "$0")/../../../examples/workloads/web.toml"
