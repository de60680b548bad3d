# The toolchain of a Cortex-M4 without an operating system: gcc-arm-none-eabi.
set(CMAKE_SYSTEM_NAME Generic)
set(CMAKE_SYSTEM_PROCESSOR cortex-m4)
set(CMAKE_C_COMPILER arm-none-eabi-gcc)
set(CMAKE_ASM_COMPILER arm-none-eabi-gcc)
set(CMAKE_OBJCOPY arm-none-eabi-objcopy)

# CMake tries the compiler by a library: there is no system that a program could be linked for.
set(CMAKE_TRY_COMPILE_TARGET_TYPE STATIC_LIBRARY)

# The last option keeps gcc from replacing the loop of memcpy() by a call of memcpy().
set(cortex_m4_flags "-mcpu=cortex-m4 -mthumb -ffreestanding -fno-tree-loop-distribute-patterns")
set(CMAKE_C_FLAGS_INIT "${cortex_m4_flags} -ffunction-sections -fdata-sections")
set(CMAKE_ASM_FLAGS_INIT "-mcpu=cortex-m4 -mthumb")
set(CMAKE_EXE_LINKER_FLAGS_INIT "-nostdlib -Wl,--gc-sections,--fatal-warnings")
