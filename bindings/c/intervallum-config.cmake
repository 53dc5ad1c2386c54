# What find_package(intervallum) reads: the target intervallum::intervallum, where `make install` has put this file.
get_filename_component(_prefix "${CMAKE_CURRENT_LIST_DIR}/../../.." ABSOLUTE)
if(NOT TARGET intervallum::intervallum)
  add_library(intervallum::intervallum SHARED IMPORTED)
  set_target_properties(intervallum::intervallum PROPERTIES
    IMPORTED_LOCATION "${_prefix}/lib/libintervallum.so"
    INTERFACE_INCLUDE_DIRECTORIES "${_prefix}/include")
  add_library(intervallum::static STATIC IMPORTED)
  set_target_properties(intervallum::static PROPERTIES
    IMPORTED_LOCATION "${_prefix}/lib/libintervallum.a"
    INTERFACE_INCLUDE_DIRECTORIES "${_prefix}/include")
endif()
unset(_prefix)
