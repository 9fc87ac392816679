/* See errno.h. */
__SIZE_TYPE__ strlen(const char *);
void *memcpy(void *, const void *, __SIZE_TYPE__);
