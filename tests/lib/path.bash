# Puts into PATH what tests need: Debian's Python, whose packages, such as websockets, a different python3 lacks, and the
# directories of dpkg's tools, which not every user has in PATH. A script reads this file at the top of the repository.
# shellcheck shell=bash

if [ -x /usr/bin/python3 ]; then PATH=$PWD/tests/lib/bin:$PATH; fi
export PATH=$PATH:/usr/sbin:/sbin
