# find_package(rudekpi) defines rudekpi::rudekpi, the shared library, and rudekpi::static, the archive.
get_filename_component(_rudekpi_root "${CMAKE_CURRENT_LIST_DIR}/../../.." ABSOLUTE)
find_path(_rudekpi_include rudekpi.h NO_DEFAULT_PATH NO_CACHE
  PATHS "${CMAKE_CURRENT_LIST_DIR}" "${_rudekpi_root}/include")
find_path(_rudekpi_lib librudekpi.a NO_DEFAULT_PATH NO_CACHE
  PATHS "${CMAKE_CURRENT_LIST_DIR}" "${_rudekpi_root}/lib")
if(NOT _rudekpi_include OR NOT _rudekpi_lib)
  set(rudekpi_FOUND FALSE)
  return()
endif()
if(NOT TARGET rudekpi::rudekpi)
  add_library(rudekpi::rudekpi SHARED IMPORTED)
  set_target_properties(rudekpi::rudekpi PROPERTIES
    IMPORTED_LOCATION "${_rudekpi_lib}/librudekpi.so.1"
    IMPORTED_SONAME librudekpi.so.1
    INTERFACE_INCLUDE_DIRECTORIES "${_rudekpi_include}")
  add_library(rudekpi::static STATIC IMPORTED)
  set_target_properties(rudekpi::static PROPERTIES
    IMPORTED_LOCATION "${_rudekpi_lib}/librudekpi.a"
    INTERFACE_INCLUDE_DIRECTORIES "${_rudekpi_include}")
endif()
