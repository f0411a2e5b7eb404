# SPDX-License-Identifier: MIT OR Apache-2.0
# The version is that of bpftap.pc. A newer minor version serves one that asks for an older one.
file(STRINGS "${CMAKE_CURRENT_LIST_DIR}/../../pkgconfig/bpftap.pc" _bpftap_line REGEX "^Version: ")
string(REPLACE "Version: " "" PACKAGE_VERSION "${_bpftap_line}")
string(REGEX MATCH "^[0-9]+" _bpftap_major "${PACKAGE_VERSION}")
if(NOT PACKAGE_FIND_VERSION VERSION_GREATER PACKAGE_VERSION AND PACKAGE_FIND_VERSION_MAJOR EQUAL _bpftap_major)
  set(PACKAGE_VERSION_COMPATIBLE TRUE)
  if(PACKAGE_FIND_VERSION VERSION_EQUAL PACKAGE_VERSION)
    set(PACKAGE_VERSION_EXACT TRUE)
  endif()
endif()
if(NOT CMAKE_SIZEOF_VOID_P STREQUAL "" AND NOT CMAKE_SIZEOF_VOID_P EQUAL 8)
  set(PACKAGE_VERSION_UNSUITABLE TRUE)
endif()
