# find_package(gauge_line) defines gauge_line::gauge_line, the static archive with its headers.
if(NOT TARGET gauge_line::gauge_line)
  get_filename_component(gauge_line_prefix "${CMAKE_CURRENT_LIST_DIR}/../../.." ABSOLUTE)
  add_library(gauge_line::gauge_line STATIC IMPORTED)
  set_target_properties(gauge_line::gauge_line PROPERTIES
    IMPORTED_LOCATION "${gauge_line_prefix}/lib/libgauge_line.a"
    IMPORTED_LINK_INTERFACE_LANGUAGES C
    INTERFACE_INCLUDE_DIRECTORIES "${gauge_line_prefix}/include/gauge_line")
  unset(gauge_line_prefix)
endif()
