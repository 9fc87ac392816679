/* The header of the library, by the name that it is installed by. */
#include "../noise.h"
