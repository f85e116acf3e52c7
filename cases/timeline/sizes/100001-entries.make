#!/bin/sh
exec "${0%/*}/../../../bench/pictures" 100001 --cpus 16 --gaps
