#!/bin/sh
# Prints the first Python that has the libraries of rescue-view and rescue-sweep, else `python3`.
for python in python3 /usr/bin/python3; do
    if "$python" -c 'import sys, elftools, jinja2, rich; assert sys.version_info >= (3, 11)' \
        2> /dev/null; then
        echo "$python"
        exit
    fi
done
echo python3
