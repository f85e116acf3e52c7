#!/bin/sh
exec "${0%/*}/../../journal/sizes/140000-entries.make"
