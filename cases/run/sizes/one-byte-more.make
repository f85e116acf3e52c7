#!/bin/sh
# A script that is too long by a byte, which is the end of a line.
"${0%/*}/most-bytes.make" && echo
