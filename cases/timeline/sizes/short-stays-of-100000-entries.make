#!/bin/sh
exec "${0%/*}/short-stays.make" 100000
