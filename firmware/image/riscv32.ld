/* virt, as qemu has it: one memory, of which parts are taken */
MEMORY
{
    FLASH (rx) : ORIGIN = 0x80000000, LENGTH = 64K
    STACK (rw) : ORIGIN = 0x80100000, LENGTH = 4K
    RAM (rw) : ORIGIN = 0x80101000, LENGTH = 124K
}
INCLUDE image.ld
