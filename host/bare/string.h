/* What C's <string.h> has that this project uses, for a compiler that comes without C's headers. */
void *memcpy(void *to, const void *from, __SIZE_TYPE__ bytes);
int strcmp(const char *s, const char *t);
int strncmp(const char *s, const char *t, __SIZE_TYPE__ bytes);
int memcmp(const void *s, const void *t, __SIZE_TYPE__ bytes);
void *memset(void *to, int byte, __SIZE_TYPE__ bytes);
__SIZE_TYPE__ strlen(const char *s);
void *memchr(const void *s, int byte, __SIZE_TYPE__ bytes);
char *strchr(const char *s, int character);
char *strrchr(const char *s, int character);
__SIZE_TYPE__ strspn(const char *s, const char *of);
__SIZE_TYPE__ strcspn(const char *s, const char *of);
char *strerror(int number);
