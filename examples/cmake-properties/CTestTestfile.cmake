# CMake generated Testfile for 
# Source directory: /home/u/labelled
# Build directory: /home/u/labelled/build
# 
# This file includes the relevant testing commands required for 
# testing this directory and lists subdirectories to be tested as well.
add_test([=[plain]=] "/bin/true")
set_tests_properties([=[plain]=] PROPERTIES  _BACKTRACE_TRIPLES "/home/u/labelled/CMakeLists.txt;5;add_test;/home/u/labelled/CMakeLists.txt;0;")
add_test([=[prepare]=] "/bin/true")
set_tests_properties([=[prepare]=] PROPERTIES  FIXTURES_SETUP "data" _BACKTRACE_TRIPLES "/home/u/labelled/CMakeLists.txt;6;add_test;/home/u/labelled/CMakeLists.txt;0;")
add_test([=[uses]=] "/bin/true")
set_tests_properties([=[uses]=] PROPERTIES  FIXTURES_REQUIRED "data" LABELS "slow;disk" TIMEOUT "5" _BACKTRACE_TRIPLES "/home/u/labelled/CMakeLists.txt;7;add_test;/home/u/labelled/CMakeLists.txt;0;")
