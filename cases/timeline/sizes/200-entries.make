#!/bin/sh
exec "${0%/*}/../../../bench/pictures" 200
