// What C code that is compiled for the module needs of the C library's heads.
#pragma once
typedef __SIZE_TYPE__ size_t;
#define NULL ((void *)0)
