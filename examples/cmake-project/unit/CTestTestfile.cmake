# CMake generated Testfile for 
# Source directory: /home/u/demo/unit
# Build directory: /home/u/demo/build/unit
# 
# This file includes the relevant testing commands required for 
# testing this directory and lists subdirectories to be tested as well.
include("discovered.cmake")
add_test([=[of-a-subfolder]=] "/bin/sh" "-c" "test -f here")
set_tests_properties([=[of-a-subfolder]=] PROPERTIES  _BACKTRACE_TRIPLES "/home/u/demo/unit/CMakeLists.txt;2;add_test;/home/u/demo/unit/CMakeLists.txt;0;")
