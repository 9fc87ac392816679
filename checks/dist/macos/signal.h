/* See errno.h. */
void (*signal(int, void (*)(int)))(int);
