# For find_package(fastlanes 0.7 REQUIRED PATHS /path/to/x86_64) and target_link_libraries(NAME PRIVATE fastlanes), which takes the
# static library, or PRIVATE fastlanes_shared.
if(NOT TARGET fastlanes)
    get_filename_component(_fastlanes "${CMAKE_CURRENT_LIST_DIR}/../../.." ABSOLUTE)
    add_library(fastlanes STATIC IMPORTED)
    set_target_properties(fastlanes PROPERTIES
        IMPORTED_LOCATION ${_fastlanes}/lib/libfastlanes.a
        INTERFACE_INCLUDE_DIRECTORIES ${_fastlanes}/include
        INTERFACE_LINK_OPTIONS -Wl,--gc-sections)
    add_library(fastlanes_shared SHARED IMPORTED)
    set_target_properties(fastlanes_shared PROPERTIES
        IMPORTED_LOCATION ${_fastlanes}/lib/libfastlanes.so
        INTERFACE_INCLUDE_DIRECTORIES ${_fastlanes}/include)
endif()
