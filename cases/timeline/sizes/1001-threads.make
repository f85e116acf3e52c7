#!/bin/sh
exec "${0%/*}/../../../bench/pictures" 3000 --threads 1001
