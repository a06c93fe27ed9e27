#include "samples.h"

const uint8_t too_long[TOO_LONG] = {0};
