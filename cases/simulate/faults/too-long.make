#!/bin/sh
# One byte more than a workload may have.
printf "cpus = 4\n#"
printf "%1048567s" ""
