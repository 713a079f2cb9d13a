# find_package(szelmikra) gives the imported static library szelmikra::szelmikra.
get_filename_component(szelmikra_PREFIX "${CMAKE_CURRENT_LIST_DIR}/../../.." ABSOLUTE)
if(NOT TARGET szelmikra::szelmikra)
  add_library(szelmikra::szelmikra STATIC IMPORTED)
  set_target_properties(szelmikra::szelmikra PROPERTIES
    IMPORTED_LOCATION "${szelmikra_PREFIX}/lib/libszelmikra.a"
    INTERFACE_INCLUDE_DIRECTORIES "${szelmikra_PREFIX}/include")
endif()
