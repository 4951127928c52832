# The library for CMake: find_package(sflight), then one of these targets.
#   sflight::sflight  the static library, with its header
#   sflight::shared   the shared library, with its header, where it is installed
#   sflight::do       sflight_do.c, which blocks, over the static library
#   sflight::record   sflight_record.c, which records what that does, and sflight::do
#   sflight::cache    sflight_cache.c, the cache for threads, and sflight::do
# It lies in the archive, and tools/install and the Debian package put it beside the library.

# The processor of the library beside this file, where that is installed. In the archive it is empty:
# there each processor has a folder.
set(_sflight_installed_for "")

if(CMAKE_SYSTEM_NAME STREQUAL "Linux" AND CMAKE_SYSTEM_PROCESSOR MATCHES "^(x86_64|amd64|AMD64)$")
  set(_sflight_triplet x86_64-linux-gnu)
elseif(CMAKE_SYSTEM_NAME STREQUAL "Linux" AND CMAKE_SYSTEM_PROCESSOR MATCHES "^(aarch64|arm64)$")
  set(_sflight_triplet aarch64-linux-gnu)
else()
  set(_sflight_triplet none)
endif()

if(_sflight_installed_for STREQUAL "")
  get_filename_component(_sflight_root "${CMAKE_CURRENT_LIST_DIR}/.." ABSOLUTE)
  set(_sflight_lib "${_sflight_root}/lib/${_sflight_triplet}")
  set(_sflight_include "${_sflight_root}")
  set(_sflight_share "${_sflight_root}")
else()
  get_filename_component(_sflight_lib "${CMAKE_CURRENT_LIST_DIR}/../.." ABSOLUTE)
  set(_sflight_include "@INCLUDE@")
  set(_sflight_share "@SHARE@")
endif()

if(_sflight_triplet STREQUAL "none")
  set(sflight_FOUND FALSE)
  set(sflight_NOT_FOUND_MESSAGE
      "sflight has libraries for Linux on x86-64 and arm64, and none for ${CMAKE_SYSTEM_NAME} on ${CMAKE_SYSTEM_PROCESSOR}")
elseif(NOT _sflight_installed_for MATCHES "^(${_sflight_triplet})?$")
  set(sflight_FOUND FALSE)
  set(sflight_NOT_FOUND_MESSAGE
      "the sflight in ${_sflight_lib} is for ${_sflight_installed_for}, and the program for ${_sflight_triplet}")
elseif(NOT EXISTS "${_sflight_lib}/libsflight.a")
  set(sflight_FOUND FALSE)
  set(sflight_NOT_FOUND_MESSAGE "${_sflight_lib}/libsflight.a is not there")
elseif(NOT TARGET sflight::sflight)
  find_package(Threads REQUIRED)
  add_library(sflight::sflight STATIC IMPORTED)
  set_target_properties(sflight::sflight PROPERTIES
    IMPORTED_LOCATION "${_sflight_lib}/libsflight.a"
    INTERFACE_INCLUDE_DIRECTORIES "${_sflight_include}")
  # In the archive the loader would not find it: the link by its name is made as it is installed.
  if(EXISTS "${_sflight_lib}/libsflight.so")
    add_library(sflight::shared SHARED IMPORTED)
    set_target_properties(sflight::shared PROPERTIES
      IMPORTED_LOCATION "${_sflight_lib}/libsflight.so"
      INTERFACE_INCLUDE_DIRECTORIES "${_sflight_include}")
  endif()
  set(_sflight_below "sflight::sflight;Threads::Threads")
  foreach(_sflight_part do record cache)
    add_library(sflight::${_sflight_part} INTERFACE IMPORTED)
    set_target_properties(sflight::${_sflight_part} PROPERTIES
      INTERFACE_SOURCES "${_sflight_share}/sflight_${_sflight_part}.c"
      INTERFACE_LINK_LIBRARIES "${_sflight_below}")
    set(_sflight_below "sflight::do")
  endforeach()
endif()
