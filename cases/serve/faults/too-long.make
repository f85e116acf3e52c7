#!/bin/sh
# A line of one byte more than a script may have, and one of as many.
echo 'cpus 2 ring 128'
printf '%1048577s\n' ''
printf '%1048576s\n' ''
echo 'tick 1'
