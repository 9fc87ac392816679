/* See errno.h. */
long read(int, void *, __SIZE_TYPE__);
long write(int, const void *, __SIZE_TYPE__);
int close(int);
