/* A call of the module has an instance of its own: the globals, and a room with the stack and a copy
   of the data, since there they follow one another. So calls share only constants. */

#if defined __GNUC__
#pragma GCC diagnostic pop
#endif

/* A room has place for SHIFTS more steps of 16 bytes: to these addresses are aligned. */
enum { LT_STACK = (LT_DEEPEST + 31) / 16 * 16, LT_SHIFTS = 3 };

typedef struct lt_call {
    w2c_lockreplay instance;
    _Alignas(16) u8 room[LT_STACK + sizeof lt_data + 16 * LT_SHIFTS];
} lt_call;

/* Makes an instance ready for a call to which up to three pointers are lent. None of them gets the
   address 0, which the module takes for no slice. */
static void lt_begin(lt_call *call, const void *one, const void *two, const void *three)
{
    uintptr_t origin = (uintptr_t)(call->room + LT_STACK) - LT_DATA_AT;
    while (origin == (uintptr_t)one || origin == (uintptr_t)two || origin == (uintptr_t)three)
        origin += 16;
    memcpy((u8 *)(origin + LT_DATA_AT), lt_data, sizeof lt_data);
    init_globals(&call->instance);
    LT_HIDE(origin);
    call->instance.w2c_memory.origin = origin;
}

/* Returns the address of what a caller lends. */
static u64 lt_lent(const lt_call *call, const void *pointer)
{
    uintptr_t lent = (uintptr_t)pointer;
    LT_HIDE(lent);
    return (u64)lent - call->instance.w2c_memory.origin;
}
