# find_package(nil) gives the target nil::nil: the header and the archive of the prefix that this file stands in.
get_filename_component(NIL_PREFIX "${CMAKE_CURRENT_LIST_DIR}/../../.." ABSOLUTE)
if(NOT TARGET nil::nil)
  add_library(nil::nil STATIC IMPORTED)
  set_target_properties(nil::nil PROPERTIES
    IMPORTED_LOCATION "${NIL_PREFIX}/lib/libnil.a"
    INTERFACE_INCLUDE_DIRECTORIES "${NIL_PREFIX}/include")
endif()
