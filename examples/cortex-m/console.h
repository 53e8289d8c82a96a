/* Where the example's lines go: semihosting.c sends them through a debugger or emulator, a handset's firmware through its UART. */
#ifndef CONSOLE_H
#define CONSOLE_H

void console_write(const char *text);

/* Ends the program with the status; 0 is success. Does not return. */
void console_end(int status);

#endif
