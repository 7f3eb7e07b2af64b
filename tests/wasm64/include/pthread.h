/* Threads that run one after the other, each whole. A call by name needs no table of functions, which older engines lack
 * for 64 bits. */
typedef int pthread_t;
#define pthread_create(thread, how, run, argument) (*(thread) = 0, (run)(argument), *(thread))
#define pthread_join(thread, result) (thread)
