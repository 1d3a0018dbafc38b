# For find_package(nizgrabul), once `make install` has put it beside the library: the target nizgrabul::nizgrabul.
# The second archive is the heap of the Rattle toolchain: malloc, realloc and free of the C library.
if(NOT TARGET nizgrabul::nizgrabul)
  get_filename_component(nizgrabul_prefix "${CMAKE_CURRENT_LIST_DIR}/../../.." ABSOLUTE)
  add_library(nizgrabul::nizgrabul STATIC IMPORTED)
  set_target_properties(nizgrabul::nizgrabul PROPERTIES
    IMPORTED_LOCATION "${nizgrabul_prefix}/lib/libms_c.a"
    INTERFACE_INCLUDE_DIRECTORIES "${nizgrabul_prefix}/include"
    INTERFACE_LINK_LIBRARIES "${nizgrabul_prefix}/lib/liblibc_c.a")
  unset(nizgrabul_prefix)
endif()
