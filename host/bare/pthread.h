/* What C's <pthread.h> has that this project uses, for a compiler that comes without C's headers. */
typedef unsigned long pthread_t;
typedef union {
    char bytes[56];
    long aligned;
} pthread_attr_t;
int pthread_attr_init(pthread_attr_t *attributes);
int pthread_attr_setstack(pthread_attr_t *attributes, void *stack, __SIZE_TYPE__ bytes);
int pthread_create(pthread_t *thread, const pthread_attr_t *attributes, void *(*run)(void *), void *with);
int pthread_join(pthread_t thread, void **result);
