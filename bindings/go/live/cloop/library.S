#include "../../../../dist/noise_c.S"
