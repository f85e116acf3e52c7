#!/bin/sh
# Ticks, and the other class on a CPU by turns.
"${0%/*}/140000-entries.make" | grep -v -E 'create|stamp|commit|yield'
