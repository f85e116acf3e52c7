#!/bin/sh
exec "${0%/*}/../../run/sizes/large-output.make"
