# For find_package(fastlanes 0.7 REQUIRED PATHS /path/to/include) and target_link_libraries(NAME PRIVATE fastlanes).
# A program that calls fl_column_error_string also compiles release/errors.c, if `rt lib` built the library.
if(NOT TARGET fastlanes)
    add_library(fastlanes STATIC IMPORTED)
    set_target_properties(fastlanes PROPERTIES
        IMPORTED_LOCATION ${CMAKE_CURRENT_LIST_DIR}/../crates/fastlanes_c/out/libfastlanes_c.a
        INTERFACE_INCLUDE_DIRECTORIES ${CMAKE_CURRENT_LIST_DIR}
        INTERFACE_LINK_OPTIONS -Wl,--gc-sections)
endif()
