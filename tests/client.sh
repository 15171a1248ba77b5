#!/bin/sh
# Tries the stock client `openstack` against a server over examples/cloud.json. Where Debian's client is not installed, which
#
#     apt-get install python3-openstackclient
#
# does, nothing is tried, and the exit status is 0. tests/client.py says the rest.
exec python3 "$(dirname "$0")/client.py" "$@"
