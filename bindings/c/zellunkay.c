/* zellunkay.c: the functions of zellunkay.h under their names, for what calls by name. */
#define ZK_API
#include "zellunkay.h"
