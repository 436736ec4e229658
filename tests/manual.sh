#!/bin/sh
# Looks whether the manual page is well formed, by the lint of mandoc, where that is installed. Called at the project's top.
if command -v mandoc >/dev/null; then
    exec mandoc -T lint -W warning docs/fdpic.1
fi
echo "docs/fdpic.1 isn't looked at: mandoc isn't installed"
