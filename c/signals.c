/* A program that rt builds ignores SIGPIPE from its start, by a call that the linker turns to this function (the Makefile's `program`). It
   does nothing: the signal stays as the caller set it, so that by default the system ends the program where its output's reader is gone. */
void (*__wrap___sysv_signal(int number, void (*handler)(int)))(int);

void (*__wrap___sysv_signal(int number, void (*handler)(int)))(int) {
    (void)number;
    return handler;
}
