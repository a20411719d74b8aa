/* Input, output and the end of a program without an operating system, by Arm's semihosting: the emulator, or a debugger, does them. */
#include "board.h"
#include "start.h"

#define SYS_OPEN 0x01
#define SYS_WRITE 0x05
#define SYS_READ 0x06
#define SYS_EXIT_EXTENDED 0x20

#define MODE_READ 0
#define MODE_WRITE 4
#define APPLICATION_EXIT 0x20026
#define NOT_WRITTEN 4

/* the file that stands for standard input and standard output */
static const char console[] = ":tt";

static uintptr_t opened(uintptr_t mode)
{
    const uintptr_t block[] = {(uintptr_t)console, mode, sizeof console - 1};

    return semihosting_call(SYS_OPEN, block);
}

/* How many bytes were not read or written. */
static size_t left(uintptr_t operation, uintptr_t file, uintptr_t bytes, size_t len)
{
    const uintptr_t block[] = {file, bytes, len};

    return semihosting_call(operation, block);
}

size_t board_read(uint8_t *bytes, size_t room)
{
    static uintptr_t input;

    if (input == 0)
        input = opened(MODE_READ);
    return room - left(SYS_READ, input, (uintptr_t)bytes, room);
}

void board_write(const uint8_t *bytes, size_t len)
{
    static uintptr_t output;

    if (output == 0)
        output = opened(MODE_WRITE);
    if (len > 0 && left(SYS_WRITE, output, (uintptr_t)bytes, len) != 0)
        board_end(NOT_WRITTEN);
}

void board_end(int status)
{
    const uintptr_t block[] = {APPLICATION_EXIT, (uintptr_t)status};

    for (;;)
        semihosting_call(SYS_EXIT_EXTENDED, block);
}
