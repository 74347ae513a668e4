#ifndef __cplusplus
#define bool _Bool
#endif
