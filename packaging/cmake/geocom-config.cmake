# find_package(geocom @ABI@), and then the target geocom::geocom, or geocom::static.
get_filename_component(_geocom_lib "${CMAKE_CURRENT_LIST_DIR}/../.." ABSOLUTE)
get_filename_component(_geocom_include "${CMAKE_CURRENT_LIST_DIR}/@UP@/include" ABSOLUTE)
if(NOT TARGET geocom::geocom)
    add_library(geocom::geocom SHARED IMPORTED)
    set_target_properties(geocom::geocom PROPERTIES
        IMPORTED_LOCATION "${_geocom_lib}/libgeocom.so.@ABI@"
        IMPORTED_SONAME "libgeocom.so.@ABI@"
        INTERFACE_INCLUDE_DIRECTORIES "${_geocom_include}")
    add_library(geocom::static STATIC IMPORTED)
    set_target_properties(geocom::static PROPERTIES
        IMPORTED_LOCATION "${_geocom_lib}/libgeocom.a"
        INTERFACE_INCLUDE_DIRECTORIES "${_geocom_include}")
endif()
unset(_geocom_lib)
unset(_geocom_include)
