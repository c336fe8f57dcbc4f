/*
 * Local continuations: a number that says where a function continues. It is
 * the line at which the function was left, and 0 at its beginning.
 *
 * The label of LC_SET is behind `if(0)`, since compilers take a statement that
 * falls through to a label for a forgotten break.
 */
#ifndef LC_H_
#define LC_H_

typedef unsigned short lc_t;

#define LC_INIT(s)   (s) = 0
#define LC_RESUME(s) switch(s) { case 0:
#define LC_SET(s)    (s) = __LINE__; if(0) { case __LINE__: ; }
#define LC_END(s)    }

#endif /* LC_H_ */
