/* mps2-an505, as qemu has it, by the secure names of its memories */
MEMORY
{
    FLASH (rx) : ORIGIN = 0x10000000, LENGTH = 64K
    STACK (rw) : ORIGIN = 0x38000000, LENGTH = 4K
    RAM (rw) : ORIGIN = 0x38001000, LENGTH = 124K
}
INCLUDE image.ld
