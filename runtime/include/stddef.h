#pragma eacsl stays <stddef.h>
/* The program knows what this header declares by itself, as far as it takes it. */
