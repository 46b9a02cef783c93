# find_package(yarrowbleat) gives the targets yarrowbleat::yarrowbleat, the shared library, and yarrowbleat::static.
get_filename_component(_yarrowbleat_prefix "${CMAKE_CURRENT_LIST_DIR}/../../.." ABSOLUTE)

if(NOT TARGET yarrowbleat::yarrowbleat)
  add_library(yarrowbleat::yarrowbleat SHARED IMPORTED)
  set_target_properties(yarrowbleat::yarrowbleat PROPERTIES
    IMPORTED_LOCATION "${_yarrowbleat_prefix}/lib/libyarrowbleat.so.0"
    IMPORTED_SONAME libyarrowbleat.so.0
    INTERFACE_INCLUDE_DIRECTORIES "${_yarrowbleat_prefix}/include")
endif()
if(NOT TARGET yarrowbleat::static)
  add_library(yarrowbleat::static STATIC IMPORTED)
  set_target_properties(yarrowbleat::static PROPERTIES
    IMPORTED_LOCATION "${_yarrowbleat_prefix}/lib/libyarrowbleat.a"
    INTERFACE_INCLUDE_DIRECTORIES "${_yarrowbleat_prefix}/include")
endif()
unset(_yarrowbleat_prefix)
