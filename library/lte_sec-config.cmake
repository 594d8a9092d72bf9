# lte_sec for CMake: find_package(lte_sec) makes the targets lte_sec::shared and lte_sec::static, and lte_sec::lte_sec, which is the shared
# one, or the static one where lte_sec_USE_STATIC_LIBS is set before.
get_filename_component(lte_sec_LIBDIR "${CMAKE_CURRENT_LIST_DIR}/@LIB@" ABSOLUTE)
get_filename_component(lte_sec_INCLUDEDIR "${CMAKE_CURRENT_LIST_DIR}/@INCLUDE@" ABSOLUTE)
set(lte_sec_PROVED @PROVED@)
if(NOT TARGET lte_sec::shared)
    add_library(lte_sec::shared SHARED IMPORTED)
    set_target_properties(lte_sec::shared PROPERTIES
        IMPORTED_LOCATION "${lte_sec_LIBDIR}/@FILE@" IMPORTED_SONAME "@SONAME@"
        INTERFACE_INCLUDE_DIRECTORIES "${lte_sec_INCLUDEDIR}")
    add_library(lte_sec::static STATIC IMPORTED)
    set_target_properties(lte_sec::static PROPERTIES
        IMPORTED_LOCATION "${lte_sec_LIBDIR}/liblte_sec.a" INTERFACE_INCLUDE_DIRECTORIES "${lte_sec_INCLUDEDIR}")
    add_library(lte_sec::lte_sec INTERFACE IMPORTED)
    if(lte_sec_USE_STATIC_LIBS)
        set_target_properties(lte_sec::lte_sec PROPERTIES INTERFACE_LINK_LIBRARIES lte_sec::static)
    else()
        set_target_properties(lte_sec::lte_sec PROPERTIES INTERFACE_LINK_LIBRARIES lte_sec::shared)
    endif()
endif()
