/* mps2-an386, as qemu has it; of its 4 MB each no more than a key may have */
MEMORY
{
    FLASH (rx) : ORIGIN = 0x00000000, LENGTH = 64K
    STACK (rw) : ORIGIN = 0x20000000, LENGTH = 4K
    RAM (rw) : ORIGIN = 0x20001000, LENGTH = 124K
}
INCLUDE image.ld
