#!/bin/sh
# In place of ssh, for tests/pages.py: each host has the tables of `mine`, but for one that doesn't answer.
while [ "$1" != -- ]; do shift; done
if [ "$2" = dead ]; then
    echo "ssh: connect to host $2 port 22: Connection timed out" >&2
    exit 255
fi
exec tar -C mine -cf - .
