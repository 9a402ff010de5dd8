/* What a box without an operating system has in place of a C library: text out and an end, both by
 * semihosting, which an emulator or a debugger answers. A real box has a UART in place of this. */
#ifndef BOX_H
#define BOX_H
#include <stddef.h>
#include <stdint.h>

void say(const char *text);
void say_number(uint32_t number);
__attribute__((noreturn)) void box_exit(int status);

#endif
