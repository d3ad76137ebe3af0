# SPDX-License-Identifier: Apache-2.0
#
# find_package(otel_c) gives the targets otel_c::otel_c, the static library, otel_c::shared, the shared one, and
# otel_c::service, the service over the static one.

include(CMakeFindDependencyMacro)
set(THREADS_PREFER_PTHREAD_FLAG ON)
find_dependency(Threads)

get_filename_component(otel_c_prefix "${CMAKE_CURRENT_LIST_DIR}/../../.." ABSOLUTE)

function(otel_c_add target kind file)
    if(NOT TARGET ${target})
        add_library(${target} ${kind} IMPORTED)
        set_target_properties(${target} PROPERTIES
            IMPORTED_LOCATION "${otel_c_prefix}/lib/${file}"
            INTERFACE_INCLUDE_DIRECTORIES "${otel_c_prefix}/include")
    endif()
endfunction()

otel_c_add(otel_c::otel_c STATIC libotel_c.a)
otel_c_add(otel_c::shared SHARED libotel_c.so)
otel_c_add(otel_c::service STATIC libotel_service.a)
set_target_properties(otel_c::service PROPERTIES INTERFACE_LINK_LIBRARIES "otel_c::otel_c;Threads::Threads")
