/* What preload.c has for the functions of the C library in wrapped.c. */
long double_raw(long number, long a, long b, long c, long d, long e, long f);
long double_act(long number, long a, long b, long c, long d, long e, long f);
long double_call(long number, long a, long b, long c, long d, long e, long f);
long double_say(long number, long a, long b, long c, long d, long e);
void double_leave(long number);
void double_is_child(void);
