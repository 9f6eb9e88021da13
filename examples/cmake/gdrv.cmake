# gdrv-cc as CMake's compiler: cmake -DCMAKE_TOOLCHAIN_FILE=gdrv.cmake, for another machine with -DGDRV_TARGET=arm-none-eabi
set(GDRV_TARGET "" CACHE STRING "TARGET of TARGET-gdrv-cc, or nothing for this machine")
list(APPEND CMAKE_TRY_COMPILE_PLATFORM_VARIABLES GDRV_TARGET)
if(GDRV_TARGET)
    set(CMAKE_SYSTEM_NAME Generic)
    # A bare machine links no program without a linker script.
    set(CMAKE_TRY_COMPILE_TARGET_TYPE STATIC_LIBRARY)
    set(CMAKE_C_COMPILER ${GDRV_TARGET}-gdrv-cc)
else()
    set(CMAKE_C_COMPILER gdrv-cc)
endif()
set(CMAKE_ASM_COMPILER ${CMAKE_C_COMPILER})
