#!/bin/sh
# A script that is explained.
cat "$(dirname "$0")/../../explain/worked/outcomes"
