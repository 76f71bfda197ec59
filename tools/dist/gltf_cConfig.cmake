# The targets gltf_c::gltf_c, the shared library, and gltf_c::static.
get_filename_component(_gltf_c_prefix "${CMAKE_CURRENT_LIST_DIR}/../../.." ABSOLUTE)

if(NOT TARGET gltf_c::gltf_c)
  add_library(gltf_c::gltf_c SHARED IMPORTED)
  set_target_properties(gltf_c::gltf_c PROPERTIES
    IMPORTED_LOCATION "${_gltf_c_prefix}/lib/libgltf_c.so.1"
    IMPORTED_SONAME "libgltf_c.so.1"
    INTERFACE_INCLUDE_DIRECTORIES "${_gltf_c_prefix}/include")
  add_library(gltf_c::static STATIC IMPORTED)
  set_target_properties(gltf_c::static PROPERTIES
    IMPORTED_LOCATION "${_gltf_c_prefix}/lib/libgltf_c.a"
    INTERFACE_INCLUDE_DIRECTORIES "${_gltf_c_prefix}/include")
endif()

unset(_gltf_c_prefix)
