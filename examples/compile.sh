#!/bin/bash
# Compiles the examples to class files of version 50 in the folder that is named, without the stubs and
# without those beyond the profile. A second word says which attributes for debuggers they get: -g, all of
# them, where it isn't there, or -g:none.
# `ecj` of Debian's package takes the version; `javac` alone can't.
set -e
cd "$(dirname "$0")"
out=${1:?the folder for the class files}
debug=${2:--g}
stubs=$(mktemp -d)
trap 'rm -rf "$stubs"' EXIT
ecj -source 1.6 -target 1.6 -nowarn -proc:none -d "$stubs" stubs/nrmi/*.java
ecj -source 1.6 -target 1.6 -nowarn -proc:none "$debug" -preserveAllLocals -cp "$stubs" -d "$out" \
  Counter.java demo/*.java book/*.java code/*.java faults/*.java life/*.java numbers/*.java shapes/*.java
