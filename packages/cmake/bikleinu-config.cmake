# The library for C: bikleinu::bikleinu is the shared library, bikleinu::static the archive.
get_filename_component(_bikleinu "${CMAKE_CURRENT_LIST_DIR}" REALPATH)
get_filename_component(_bikleinu "${_bikleinu}/@UP@" ABSOLUTE)
if(NOT TARGET bikleinu::bikleinu)
  add_library(bikleinu::bikleinu SHARED IMPORTED)
  set_target_properties(bikleinu::bikleinu PROPERTIES
    IMPORTED_LOCATION "${_bikleinu}/@LIB@/libbikleinu.so.@VERSION@"
    IMPORTED_SONAME "libbikleinu.so.0"
    INTERFACE_INCLUDE_DIRECTORIES "${_bikleinu}/include")
  add_library(bikleinu::static STATIC IMPORTED)
  set_target_properties(bikleinu::static PROPERTIES
    IMPORTED_LOCATION "${_bikleinu}/@LIB@/libbikleinu.a"
    INTERFACE_INCLUDE_DIRECTORIES "${_bikleinu}/include")
endif()
unset(_bikleinu)
