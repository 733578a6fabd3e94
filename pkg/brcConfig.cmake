# find_package(brc) gives the target brc::brc, the static library. This file stands in lib/cmake/brc/ of the place where
# brc is installed.
get_filename_component(_brc_prefix "${CMAKE_CURRENT_LIST_DIR}/../../.." ABSOLUTE)
if(NOT TARGET brc::brc)
  add_library(brc::brc STATIC IMPORTED)
  set_target_properties(brc::brc PROPERTIES
    IMPORTED_LOCATION "${_brc_prefix}/lib/libbrc.a"
    INTERFACE_INCLUDE_DIRECTORIES "${_brc_prefix}/include")
endif()
unset(_brc_prefix)
