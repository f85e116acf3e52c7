#!/bin/sh
exec "${0%/*}/../../../bench/pictures" 2000
