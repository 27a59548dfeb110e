#pragma once
#define IS_LOUD 0

#if IS_LOUD
import loud;
#else
import quiet;
#endif
