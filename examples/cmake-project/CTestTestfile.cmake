# CMake generated Testfile for 
# Source directory: /home/u/demo
# Build directory: /home/u/demo/build
# 
# This file includes the relevant testing commands required for 
# testing this directory and lists subdirectories to be tested as well.
add_test([=[plain]=] "/bin/true")
set_tests_properties([=[plain]=] PROPERTIES  _BACKTRACE_TRIPLES "/home/u/demo/CMakeLists.txt;5;add_test;/home/u/demo/CMakeLists.txt;0;")
add_test([=[a name with spaces]=] "/bin/sh" "-c" "test \"\$1\" = \"a; b\"" "sh" "a; b")
set_tests_properties([=[a name with spaces]=] PROPERTIES  _BACKTRACE_TRIPLES "/home/u/demo/CMakeLists.txt;6;add_test;/home/u/demo/CMakeLists.txt;0;")
if(CTEST_CONFIGURATION_TYPE MATCHES "^([Dd][Ee][Bb][Uu][Gg])$")
  add_test([=[in-debug-alone]=] "/bin/false")
  set_tests_properties([=[in-debug-alone]=] PROPERTIES  _BACKTRACE_TRIPLES "/home/u/demo/CMakeLists.txt;7;add_test;/home/u/demo/CMakeLists.txt;0;")
endif()
add_test([=[last]=] "/bin/sh" "-c" "exit 3")
set_tests_properties([=[last]=] PROPERTIES  _BACKTRACE_TRIPLES "/home/u/demo/CMakeLists.txt;9;add_test;/home/u/demo/CMakeLists.txt;0;")
subdirs("unit")
