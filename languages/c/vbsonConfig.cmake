# vbson::vbson is the shared library, vbson::static the archive.
get_filename_component(_vbson "${CMAKE_CURRENT_LIST_DIR}/../../.." ABSOLUTE)
if(NOT TARGET vbson::vbson)
  add_library(vbson::vbson SHARED IMPORTED)
  set_target_properties(vbson::vbson PROPERTIES IMPORTED_LOCATION "${_vbson}/lib/libvbson.so" INTERFACE_INCLUDE_DIRECTORIES "${_vbson}/include")
  add_library(vbson::static STATIC IMPORTED)
  set_target_properties(vbson::static PROPERTIES IMPORTED_LOCATION "${_vbson}/lib/libvbson.a" INTERFACE_INCLUDE_DIRECTORIES "${_vbson}/include")
endif()
unset(_vbson)
