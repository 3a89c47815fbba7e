# the version of the clone, by the rule of an installation
file(STRINGS "${CMAKE_CURRENT_LIST_DIR}/../../VERSION" VERSION)
string(REGEX REPLACE "~.*" "" NUMBERS "${VERSION}")
configure_file("${CMAKE_CURRENT_LIST_DIR}/../umConfigVersion.cmake.in" "${CMAKE_BINARY_DIR}/um/umConfigVersion.cmake" @ONLY)
include("${CMAKE_BINARY_DIR}/um/umConfigVersion.cmake")
