# SPDX-License-Identifier: MIT OR Apache-2.0
# find_package(bpftap) gives bpftap::bpftap, the shared library, and bpftap::static, the archive. CMake then knows where the shared
# library lies, so that a program of a build finds it.
get_filename_component(_bpftap_prefix "${CMAKE_CURRENT_LIST_DIR}/../../.." ABSOLUTE)

function(_bpftap_target name kind file)
  if(NOT TARGET bpftap::${name})
    add_library(bpftap::${name} ${kind} IMPORTED)
    set_target_properties(bpftap::${name} PROPERTIES
      IMPORTED_LOCATION "${_bpftap_prefix}/lib/${file}"
      INTERFACE_INCLUDE_DIRECTORIES "${_bpftap_prefix}/include")
  endif()
endfunction()

_bpftap_target(bpftap SHARED libbpftap.so.1)
set_target_properties(bpftap::bpftap PROPERTIES IMPORTED_SONAME libbpftap.so.1)
_bpftap_target(static STATIC libbpftap.a)
