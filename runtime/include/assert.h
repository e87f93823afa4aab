/* The macro assert (C99 7.2): its argument is that of an annotation, which has numbers without a size, and no call and no assignment. Where NDEBUG is defined in
   front of the #include it asks nothing. */
#undef assert
#ifdef NDEBUG
#define assert(__holds) ((void)0)
#else
#define assert(__holds) if (1) { /*@ assert __holds; */ } else
#endif
