# find_package(zones) gives the target zones::zones: the archive and the folder of zones.h. Relative to where this file lies: the folder may be moved as a
# whole.
get_filename_component(_zones_prefix "${CMAKE_CURRENT_LIST_DIR}/../../.." ABSOLUTE)
if(NOT TARGET zones::zones)
  add_library(zones::zones STATIC IMPORTED)
  set_target_properties(zones::zones PROPERTIES
    IMPORTED_LOCATION "${_zones_prefix}/lib/libzones.a"
    IMPORTED_LINK_INTERFACE_LANGUAGES "C"
    INTERFACE_INCLUDE_DIRECTORIES "${_zones_prefix}/include")
endif()
unset(_zones_prefix)
