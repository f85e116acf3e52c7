#!/bin/sh
# The script of a large output, and a fault at its end.
"${0%/*}/large-output.make" && echo blok
