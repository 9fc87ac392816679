# What packaging/install puts beside the library, for find_package(noise_c).
function(noise_c_target name kind file)
    if(NOT TARGET "${name}" AND EXISTS "${file}")
        add_library("${name}" "${kind}" IMPORTED)
        set_target_properties("${name}" PROPERTIES
            IMPORTED_LOCATION "${file}" INTERFACE_INCLUDE_DIRECTORIES "@includedir@")
    endif()
endfunction()

noise_c_target(noise_c::static STATIC "@libdir@/libnoise_c.a")
noise_c_target(noise_c::noise_c SHARED "@libdir@/libnoise_c.so.@major@")
noise_c_target(noise_c::noise_c SHARED "@libdir@/libnoise_c.@major@.dylib")
noise_c_target(noise_c::noise_c STATIC "@libdir@/libnoise_c.a")
